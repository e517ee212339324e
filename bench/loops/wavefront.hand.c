#include <stdint.h>
void wavefront(int64_t N, uint64_t a[N + 1][N + 1]) {
  for (int64_t w = 0; w <= 2 * N - 2; w++)
    for (int64_t j = w < N ? 0 : w - N + 1; j <= (w < N ? w : N - 1); j++)
      a[w - j + 1][j + 1] = a[w - j][j + 1] + a[w - j + 1][j];
}
