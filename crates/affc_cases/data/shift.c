#include <stdint.h>
#pragma affc param N 1 9
void shift(int64_t N, uint64_t out[N + 1]) {
  for (int64_t i = 0; i < N; i++)
    out[i] = out[i + 1];
}
