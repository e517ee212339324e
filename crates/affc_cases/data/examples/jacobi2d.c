#include <stdint.h>
#pragma affc param T 1 20
#pragma affc param N 3 50
void jacobi2d(int64_t T, int64_t N, const uint64_t in[N][N], uint64_t out[N][N]) {
  uint64_t a[T + 1][N][N];
  for (int64_t i = 0; i < N; i++)
    for (int64_t j = 0; j < N; j++)
      a[0][i][j] = in[i][j];
  for (int64_t s = 1; s <= T; s++) {
    for (int64_t j = 0; j < N; j++)
      a[s][0][j] = a[s - 1][0][j];
    for (int64_t i = 1; i < N - 1; i++) {
      a[s][i][0] = a[s - 1][i][0];
      for (int64_t j = 1; j < N - 1; j++)
        a[s][i][j] = a[s - 1][i - 1][j] + a[s - 1][i][j - 1] + a[s - 1][i][j] + a[s - 1][i][j + 1] + a[s - 1][i + 1][j];
      a[s][i][N - 1] = a[s - 1][i][N - 1];
    }
    for (int64_t j = 0; j < N; j++)
      a[s][N - 1][j] = a[s - 1][N - 1][j];
  }
  for (int64_t i = 0; i < N; i++)
    for (int64_t j = 0; j < N; j++)
      out[i][j] = a[T][i][j];
}
