time 1;
S0: (i); i = t0;
S1: (i + 2); i = t0 - 2;
S2: (i + 5); i = t0 - 5;
