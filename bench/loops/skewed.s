time 2;
S0: (2 * s + i, s); s = t1, i = t0 - 2 * t1;
