#include <stdint.h>
#pragma affc param N 1 1024
void floyd(int64_t N, uint64_t d[N][N]) {
  for (int64_t k = 0; k < N; k++)
    for (int64_t i = 0; i < N; i++)
      for (int64_t j = 0; j < N; j++)
        d[i][j] |= d[i][k] & d[k][j];
}
