rlset pasf$
rlqe all({n},(n >= 8 impl ex({x1,x2},(x1 >= 0 and x2 >= 0 and n = 3*x1+5*x2))));
