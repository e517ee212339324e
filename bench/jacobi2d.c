#include <stdint.h>
#pragma affc param T 1 100
#pragma affc param N 3 1000
void jacobi2d(int64_t T, int64_t N, const uint64_t in[N][N], uint64_t out[T + 1][N][N]) {
  for (int64_t i = 0; i < N; i++)
    for (int64_t j = 0; j < N; j++)
      out[0][i][j] = in[i][j];
  for (int64_t t = 1; t <= T; t++) {
    for (int64_t i = 0; i < N; i++) {
      out[t][i][0] = out[t - 1][i][0];
      out[t][i][N - 1] = out[t - 1][i][N - 1];
    }
    for (int64_t j = 1; j < N - 1; j++) {
      out[t][0][j] = out[t - 1][0][j];
      out[t][N - 1][j] = out[t - 1][N - 1][j];
    }
    for (int64_t i = 1; i < N - 1; i++)
      for (int64_t j = 1; j < N - 1; j++)
        out[t][i][j] = out[t - 1][i][j] + out[t - 1][i - 1][j] + out[t - 1][i + 1][j] + out[t - 1][i][j - 1] + out[t - 1][i][j + 1];
  }
}
