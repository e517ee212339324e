#include <stdint.h>
#pragma affc param N 1 200
void wavefront(int64_t N, uint64_t a[N + 1][N + 1]) {
  for (int64_t i = 0; i < N; i++)
    for (int64_t j = 0; j < N; j++)
      a[i + 1][j + 1] = a[i][j + 1] + a[i + 1][j];
}
