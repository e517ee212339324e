#include <stdint.h>
#pragma affc param N -1 4
void f(int64_t N, const uint64_t in[N], uint64_t out[N]) {
  for (int64_t i = 0; i < N; i++)
    out[i] ^= in[i];
}
