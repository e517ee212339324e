#include <stdint.h>
#pragma affc param N 1 200
#pragma affc param M 1 200
void separable(int64_t N, int64_t M, const uint64_t in[N + 2][M + 2], uint64_t out[N][M]) {
  uint64_t rows[N + 2][M];
  for (int64_t i = 0; i < N + 2; i++)
    for (int64_t j = 0; j < M; j++)
      rows[i][j] = in[i][j] + 2ULL * in[i][j + 1] + in[i][j + 2];
  for (int64_t i = 0; i < N; i++)
    for (int64_t j = 0; j < M; j++)
      out[i][j] = (rows[i][j] + 2ULL * rows[i + 1][j] + rows[i + 2][j]) >> 4;
}
