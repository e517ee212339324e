#include <stdint.h>
void skewed(int64_t T, int64_t N, uint64_t a[T + 1][N]) {
  for (int64_t w = 3; w <= 2 * T + N - 2; w++) {
    int64_t low = (w - N + 3) / 2 > 1 ? (w - N + 3) / 2 : 1;
    int64_t high = (w - 1) / 2 < T ? (w - 1) / 2 : T;
    for (int64_t s = low; s <= high; s++) {
      int64_t i = w - 2 * s;
      a[s][i] = (a[s - 1][i - 1] + 2ULL * a[s - 1][i] + a[s - 1][i + 1]) >> 2;
    }
  }
}
