rlset pasf$
rlqe ex({x1,x2,x3},(x1 >= 0 and x2 >= 0 and x3 >= 0 and 7*x1+11*x2+13*x3 = n));
