% shortest answer: 1 atoms
rlset pasf$
rlqe ex({x},2*x = a);
