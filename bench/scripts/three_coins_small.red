rlset pasf$
rlqe all({n},(n >= 0 impl ex({x1,x2,x3},(x1 >= 0 and x2 >= 0 and x3 >= 0 and n = x1+2*x2+3*x3))));
