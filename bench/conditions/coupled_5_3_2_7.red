rlset pasf$
rlqe ex({x,y},(p = 5*x+3*y and q = 2*x+7*y and 0 <= x and 0 <= y));
