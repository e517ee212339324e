#include <stdint.h>
#pragma affc param N 1 4096
void sum(int64_t N, const uint64_t in[N], uint64_t out[N]) {
  uint64_t t[N + 1];
  t[0] = 0ULL;
  for (int64_t i = 0; i < N; i++) {
    t[i + 1] = t[i] + in[i];
    out[i] = t[i + 1];
  }
}
