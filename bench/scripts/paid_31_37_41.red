rlset pasf$
rlqe ex({x1,x2,x3},(x1 >= 0 and x2 >= 0 and x3 >= 0 and 31*x1+37*x2+41*x3 = n));
