#include <stdint.h>
#pragma affc param N 1 1000
void halve(int64_t N, const uint64_t x[2 * N + 1], uint64_t even[N], uint64_t odd[N]) {
  uint64_t s[2 * N];
  for (int64_t i = 0; i < 2 * N; i++)
    s[i] = x[i] + x[i + 1];
  for (int64_t i = 0; i < N; i++) {
    even[i] = s[2 * i];
    odd[i] = s[2 * i + 1] ^ s[2 * i];
  }
}
