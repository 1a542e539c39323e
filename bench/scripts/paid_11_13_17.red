rlset pasf$
rlqe ex({x1,x2,x3},(x1 >= 0 and x2 >= 0 and x3 >= 0 and 11*x1+13*x2+17*x3 = n));
