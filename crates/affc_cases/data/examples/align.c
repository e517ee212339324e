#include <stdint.h>
#pragma affc param N 1 30
#pragma affc param M 1 30
/* The least number of letters to change, put in or leave out, so that the one word becomes the other. The lesser of x
   and y, which are below 2^63, is y + ((x - y) & (0 - ((x - y) >> 63))). */
void align(int64_t N, int64_t M, const uint64_t from[N], const uint64_t to[M], uint64_t out[1]) {
  uint64_t d[N + 1][M + 1], gap[N][M], change[N][M];
  for (int64_t i = 0; i <= N; i++)
    d[i][0] = (uint64_t)(i);
  for (int64_t j = 1; j <= M; j++)
    d[0][j] = (uint64_t)(j);
  for (int64_t i = 0; i < N; i++)
    for (int64_t j = 0; j < M; j++) {
      gap[i][j] = 1ULL + d[i][j + 1] + ((d[i + 1][j] - d[i][j + 1]) & (0ULL - ((d[i + 1][j] - d[i][j + 1]) >> 63)));
      change[i][j] = d[i][j] + (((from[i] ^ to[j]) | (0ULL - (from[i] ^ to[j]))) >> 63);
      d[i + 1][j + 1] = change[i][j] + ((gap[i][j] - change[i][j]) & (0ULL - ((gap[i][j] - change[i][j]) >> 63)));
    }
  out[0] = d[N][M];
}
