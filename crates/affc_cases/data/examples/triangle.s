time 2;
S0: (i, -j); i = t0, j = -t1;
S1: (i, -j); i = t0, j = -t1;
S2: (i, -j); i = t0, j = -t1;
