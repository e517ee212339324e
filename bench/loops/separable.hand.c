#include <stdint.h>
void separable(int64_t N, int64_t M, const uint64_t in[N + 2][M + 2], uint64_t out[N][M]) {
  uint64_t rows[3][M];
  for (int64_t i = 0; i < N + 2; i++)
    for (int64_t j = 0; j < M; j++) {
      rows[i % 3][j] = in[i][j] + 2ULL * in[i][j + 1] + in[i][j + 2];
      if (i >= 2)
        out[i - 2][j] = (rows[(i - 2) % 3][j] + 2ULL * rows[(i - 1) % 3][j] + rows[i % 3][j]) >> 4;
    }
}
