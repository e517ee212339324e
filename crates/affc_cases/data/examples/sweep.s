source;
fold g: (x0 - x1, x1); x0 = y0 + y1, x1 = y1;
