rlset pasf$
rlqe all({n},(n >= 2 impl ex({x1,x2},(x1 >= 0 and x2 >= 0 and n = 2*x1+3*x2))));
