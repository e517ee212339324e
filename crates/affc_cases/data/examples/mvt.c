#include <stdint.h>
#pragma affc param N 1 1024
void mvt(int64_t N, const uint64_t a[N][N], const uint64_t y[N], const uint64_t z[N], uint64_t u[N], uint64_t v[N]) {
  for (int64_t i = 0; i < N; i++)
    for (int64_t j = 0; j < N; j++)
      u[i] += a[i][j] * y[j];
  for (int64_t i = 0; i < N; i++)
    for (int64_t j = 0; j < N; j++)
      v[i] += a[j][i] * z[j];
}
