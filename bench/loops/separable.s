time 2;
S0: (i, j); i = t0, j = t1;
S1: (i + 2, j); i = t0 - 2, j = t1;
fold rows: (x0, x1); x0 = y0, x1 = y1;
