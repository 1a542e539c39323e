rlset pasf$
rlqe ex({x1,x2,x3,x4,x5},(x1 >= 0 and x2 >= 0 and x3 >= 0 and x4 >= 0 and x5 >= 0 and 7*x1+11*x2+13*x3+17*x4+19*x5 = n));
