#include <stdint.h>
#pragma affc param N 1 16
void chain(int64_t N, const uint64_t a[N][N], const uint64_t b[N][N], const uint64_t c[N][N], const uint64_t d[N][N], uint64_t out[N][N]) {
  uint64_t p[N][N], q[N][N];
  for (int64_t i = 0; i < N; i++)
    for (int64_t j = 0; j < N; j++) {
      p[i][j] = 0ULL;
      for (int64_t k = 0; k < N; k++)
        p[i][j] += a[i][k] * b[k][j];
    }
  for (int64_t i = 0; i < N; i++)
    for (int64_t j = 0; j < N; j++) {
      q[i][j] = 0ULL;
      for (int64_t k = 0; k < N; k++)
        q[i][j] += p[i][k] * c[k][j];
    }
  for (int64_t i = 0; i < N; i++)
    for (int64_t j = 0; j < N; j++) {
      out[i][j] = 0ULL;
      for (int64_t k = 0; k < N; k++)
        out[i][j] += q[i][k] * d[k][j];
    }
}
