% shortest answer: 4 atoms
rlset pasf$
rlqe ex({x,y},(0 <= x and 0 <= y and 3*x+5*y = n));
