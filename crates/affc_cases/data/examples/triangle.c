#include <stdint.h>
#pragma affc param N 1 60
void triangle(int64_t N, uint64_t out[N][N]) {
  for (int64_t i = 0; i < N; i++)
    for (int64_t j = 0; j < N; j++) {
      if (j > i)
        out[i][j] = 0ULL;
      if (j == 0)
        out[i][j] = 1ULL;
      if (j >= 1 && j <= i)
        out[i][j] = out[i - 1][j - 1] + out[i - 1][j];
    }
}
