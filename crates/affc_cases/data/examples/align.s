time 2;
S0: (i, i); i = t0;
S1: (j, 0); j = t0;
S2: (i + j + 2, i + 1); i = t1 - 1, j = t0 - t1 - 1;
S3: (i + j + 2, i + 1); i = t1 - 1, j = t0 - t1 - 1;
S4: (i + j + 2, i + 1); i = t1 - 1, j = t0 - t1 - 1;
S5: (N + M, N + 1);
fold d: (x0 + x1, x0); x0 = y1, x1 = y0 - y1;
