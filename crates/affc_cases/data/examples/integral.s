time 2;
S0: (0, j); j = t1;
S1: (i, 0); i = t0;
S2: (i, j); i = t0, j = t1;
S3: (i + 3, j + 3); i = t0 - 3, j = t1 - 3;
