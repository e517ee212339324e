#include <stdint.h>
#pragma affc param N 1 4
void f(int64_t N, const uint64_t in[N], uint64_t out[N]) {
