#include <stdint.h>
#pragma affc param N 1 4096
void blur(int64_t N, const uint64_t in[N + 2], uint64_t out[N]) {
  uint64_t t[N + 2];
  for (int64_t i = 0; i < N + 2; i++) {
    t[i] = in[i] + 1ULL;
  }
  for (int64_t i = 0; i < N; i++) {
    out[i] = t[i] + t[i + 1] + t[i + 2];
  }
}
