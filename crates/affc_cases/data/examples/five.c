#include <stdint.h>
#pragma affc param N 3 100
#pragma affc param M 3 100
void five(int64_t N, int64_t M, const uint64_t a[N][M], uint64_t out[N][M]) {
  for (int64_t i = 1; i < N - 1; i++)
    for (int64_t j = 1; j < M - 1; j++)
      out[i][j] = 4ULL * a[i][j] - a[i - 1][j] - a[i + 1][j] - a[i][j - 1] - a[i][j + 1];
}
