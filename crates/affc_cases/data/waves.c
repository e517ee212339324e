#include <stdint.h>
#pragma affc param N 1 3
static inline int64_t affc_min(int64_t a, int64_t b) { return a < b ? a : b; }
static inline int64_t affc_max(int64_t a, int64_t b) { return a > b ? a : b; }
static inline int64_t affc_floord(int64_t a, int64_t b) { return a / b - (a % b < 0); }
static inline int64_t affc_ceild(int64_t a, int64_t b) { return a / b + (a % b > 0); }
static inline int64_t affc_mod(int64_t a, int64_t b) { return a % b + (a % b < 0 ? b : 0); }
void sums(int64_t N, uint64_t a[N + 1][N + 1]) {
  for (int64_t affc_t0 = affc_max(0, 0); affc_t0 <= affc_min(2 * N - 2, 4); affc_t0++) {
    for (int64_t affc_t1 = affc_max(affc_max(affc_t0 - N + 1, 0), 0); affc_t1 <= affc_min(affc_min(affc_t0, N - 1), 2); affc_t1++) {
      {
        const int64_t i = affc_t0 - affc_t1;
        const int64_t j = affc_t1;
        if (0 <= i && i <= 2 && 0 <= j && j <= 2) {
          if (affc_t0 == i + j && affc_t1 == j) {
            if (0 <= i && i < N) {
              if (0 <= j && j < N) {
                a[i + 1][j + 1] = a[i][j + 1] + a[i + 1][j];
              }
            }
          }
        }
      }
    }
  }
}
