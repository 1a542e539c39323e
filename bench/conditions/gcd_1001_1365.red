% shortest answer: 1 atoms
rlset pasf$
rlqe ex({x,y},1001*x+1365*y = n);
