#include <stdint.h>
#pragma affc param N 1 9
void forms(int64_t N, const uint64_t in[N], uint64_t out[N]) {
  for (int64_t i = 0; i < N; i++)
    if (i % 2 == 0 || (i != 3 && N > 4))
      out[i] = in[i];
    else if (i == 1)
      out[i] = 1ULL;
    else {
      out[i] = 2ULL;
    }
}
