#include <stdint.h>
#pragma affc param N 1 1024
void matmul(int64_t N, const uint64_t a[N][N], const uint64_t b[N][N], uint64_t c[N][N]) {
  for (int64_t i = 0; i < N; i++)
    for (int64_t j = 0; j < N; j++) {
      c[i][j] = 0ULL;
      for (int64_t k = 0; k < N; k++)
        c[i][j] += a[i][k] * b[k][j];
    }
}
