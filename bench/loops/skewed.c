#include <stdint.h>
#pragma affc param T 1 100
#pragma affc param N 3 400
void skewed(int64_t T, int64_t N, uint64_t a[T + 1][N]) {
  for (int64_t s = 1; s <= T; s++)
    for (int64_t i = 1; i < N - 1; i++)
      a[s][i] = (a[s - 1][i - 1] + 2ULL * a[s - 1][i] + a[s - 1][i + 1]) >> 2;
}
