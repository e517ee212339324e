time 2;
S0: (i, 0); i = t0;
S1: (2 * s, s); s = t1;
S2: (2 * s + i, s); s = t1, i = t0 - 2 * t1;
S3: (2 * s + N - 1, s); s = t1;
S4: (2 * T + i, T + 1); i = t0 - 2 * T;
fold a: (2 * x0 + x1, x0); x0 = y1, x1 = y0 - 2 * y1;
