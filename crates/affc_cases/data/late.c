#include <stdint.h>
#pragma affc param N 1 4
void f(int64_t N, const uint64_t in[N], uint64_t out[N]) {
  uint64_t t[4];
  if (N >= 2)
    t[0] = in[0];
  for (int64_t i = 0; i < N; i++)
    out[i] = t[0];
}
