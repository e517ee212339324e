#include <stdint.h>
#pragma affc param T 1 100
#pragma affc param N 3 100
void sweep(int64_t T, int64_t N, const uint64_t in[N], uint64_t out[N]) {
  uint64_t g[T + 1][N];
  for (int64_t i = 0; i < N; i++)
    g[0][i] = in[i];
  for (int64_t s = 0; s < T; s++) {
    g[s + 1][0] = g[s][0];
    for (int64_t i = 1; i < N - 1; i++)
      g[s + 1][i] = g[s][i - 1] + g[s][i] + g[s][i + 1];
    g[s + 1][N - 1] = g[s][N - 1];
  }
  for (int64_t i = 0; i < N; i++)
    out[i] = g[T][i];
}
