rlset pasf$
rlqe ex({x1,x2,x3},(x1 >= 0 and x2 >= 0 and x3 >= 0 and 30*x1+42*x2+70*x3 = n));
