% With coins of 3 and 5 each sum from 8 on can be paid, and 7 can't.
rlset pasf$
rlqe all(c, c >= 8 impl ex({x,y}, x >= 0 and y >= 0 and 3*x + 5*y = c));
rlqe ex({x,y}, x >= 0 and y >= 0 and 3*x + 5*y = 7);
