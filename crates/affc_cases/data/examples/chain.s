time 4;
S0: (i, 0, j, 0); i = t0, j = t2;
S1: (i, 0, j, k + 1); i = t0, j = t2, k = t3 - 1;
S2: (i, 1, j, 0); i = t0, j = t2;
S3: (i, 1, j, k + 1); i = t0, j = t2, k = t3 - 1;
S4: (i, 2, j, 0); i = t0, j = t2;
S5: (i, 2, j, k + 1); i = t0, j = t2, k = t3 - 1;
