#include <stdint.h>
#pragma affc param N 3 60
#pragma affc param M 3 60
void integral(int64_t N, int64_t M, const uint64_t in[N][M], uint64_t out[N - 2][M - 2]) {
  uint64_t s[N + 1][M + 1];
  for (int64_t j = 0; j <= M; j++)
    s[0][j] = 0ULL;
  for (int64_t i = 1; i <= N; i++) {
    s[i][0] = 0ULL;
    for (int64_t j = 1; j <= M; j++)
      s[i][j] = s[i - 1][j] + s[i][j - 1] - s[i - 1][j - 1] + in[i - 1][j - 1];
  }
  for (int64_t i = 0; i < N - 2; i++)
    for (int64_t j = 0; j < M - 2; j++)
      out[i][j] = s[i + 3][j + 3] - s[i][j + 3] - s[i + 3][j] + s[i][j];
}
