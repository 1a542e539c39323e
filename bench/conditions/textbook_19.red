% shortest answer: 1 atoms
rlset pasf$
rlqe ex({x},(a < 2*x and 2*x < a+2));
