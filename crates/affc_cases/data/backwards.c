#include <stdint.h>
#pragma affc param N 1 4
static inline int64_t affc_min(int64_t a, int64_t b) { return a < b ? a : b; }
static inline int64_t affc_max(int64_t a, int64_t b) { return a > b ? a : b; }
static inline int64_t affc_floord(int64_t a, int64_t b) { return a / b - (a % b < 0); }
static inline int64_t affc_ceild(int64_t a, int64_t b) { return a / b + (a % b > 0); }
static inline int64_t affc_mod(int64_t a, int64_t b) { return a % b + (a % b < 0 ? b : 0); }
void copy(int64_t N, const uint64_t in[N], uint64_t out[N]) {
  for (int64_t affc_t0 = affc_max(-N + 1, -3); affc_t0 <= affc_min(0, 0); affc_t0++) {
    {
      const int64_t i = -affc_t0;
      if (0 <= i && i <= 3) {
        if (affc_t0 == -i) {
          if (0 <= i && i < N) {
            out[i] = in[i];
          }
        }
      }
    }
  }
}
