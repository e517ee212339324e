source;
fold a: (x0 - x1, x2, x1); x0 = y0 + y2, x1 = y2, x2 = y1;
