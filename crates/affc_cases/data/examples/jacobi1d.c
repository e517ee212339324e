#include <stdint.h>
#pragma affc param T 1 40
#pragma affc param N 3 100
void jacobi1d(int64_t T, int64_t N, const uint64_t in[N], uint64_t out[N]) {
  uint64_t a[T + 1][N];
  for (int64_t i = 0; i < N; i++)
    a[0][i] = in[i];
  for (int64_t s = 1; s <= T; s++) {
    a[s][0] = a[s - 1][0];
    for (int64_t i = 1; i < N - 1; i++)
      a[s][i] = (a[s - 1][i - 1] + 2ULL * a[s - 1][i] + a[s - 1][i + 1]) >> 2;
    a[s][N - 1] = a[s - 1][N - 1];
  }
  for (int64_t i = 0; i < N; i++)
    out[i] = a[T][i];
}
