% shortest answer: 1 atoms
rlset pasf$
rlqe ex({x,y},12*x+18*y = n);
