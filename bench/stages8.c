#include <stdint.h>
#pragma affc param M 1 1000
void big(int64_t M, const uint64_t in[M + 16], uint64_t out[M]) {
  uint64_t a0[M + 16];
  uint64_t a1[M + 14];
  uint64_t a2[M + 12];
  uint64_t a3[M + 10];
  uint64_t a4[M + 8];
  uint64_t a5[M + 6];
  uint64_t a6[M + 4];
  uint64_t a7[M + 2];
  for (int64_t i = 0; i < M + 16; i++) {
    a0[i] = in[i];
  }
  for (int64_t i = 0; i < M + 14; i++) {
    a1[i] = a0[i] + a0[i + 1] + a0[i + 2];
  }
  for (int64_t i = 0; i < M + 12; i++) {
    a2[i] = a1[i] + a1[i + 1] + a1[i + 2];
  }
  for (int64_t i = 0; i < M + 10; i++) {
    a3[i] = a2[i] + a2[i + 1] + a2[i + 2];
  }
  for (int64_t i = 0; i < M + 8; i++) {
    a4[i] = a3[i] + a3[i + 1] + a3[i + 2];
  }
  for (int64_t i = 0; i < M + 6; i++) {
    a5[i] = a4[i] + a4[i + 1] + a4[i + 2];
  }
  for (int64_t i = 0; i < M + 4; i++) {
    a6[i] = a5[i] + a5[i + 1] + a5[i + 2];
  }
  for (int64_t i = 0; i < M + 2; i++) {
    a7[i] = a6[i] + a6[i + 1] + a6[i + 2];
  }
  for (int64_t i = 0; i < M; i++) {
    out[i] = a7[i] + a7[i + 1] + a7[i + 2];
  }
}
