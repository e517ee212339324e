time 3;
S0: (0, i, j); i = t1, j = t2;
S1: (t, i + t, t); t = t0, i = t1 - t0;
S2: (t, i + t, N - 1 + t); t = t0, i = t1 - t0;
S3: (t, t, j + t); t = t0, j = t2 - t0;
S4: (t, N - 1 + t, j + t); t = t0, j = t2 - t0;
S5: (t, i + t, j + t); t = t0, i = t1 - t0, j = t2 - t0;
