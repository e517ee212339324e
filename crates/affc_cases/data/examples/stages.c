#include <stdint.h>
#pragma affc param N 1 1000
void stages(int64_t N, const uint64_t in[N + 6], uint64_t out[N]) {
  uint64_t a[N + 5], b[N + 3];
  for (int64_t i = 0; i < N + 5; i++)
    a[i] = 3ULL * in[i] + in[i + 1];
  for (int64_t i = 0; i < N + 3; i++)
    b[i] = a[i] ^ (a[i + 1] >> 1) ^ (a[i + 2] >> 2);
  for (int64_t i = 0; i < N; i++)
    out[i] = b[i + 3] - b[i];
}
