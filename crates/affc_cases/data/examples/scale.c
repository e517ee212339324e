#include <stdint.h>
#pragma affc param N 1 1000
void scale(int64_t N, const uint64_t x[N], const uint64_t y[N], uint64_t out[N]) {
  for (int64_t i = 0; i < N; i++)
    out[i] = 3ULL * x[i] + (y[i] >> 1) - 7ULL;
}
