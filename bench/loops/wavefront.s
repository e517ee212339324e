time 2;
S0: (i + j, j); i = t0 - t1, j = t1;
