% shortest answer: 1 atoms
rlset pasf$
rlqe all({y},(y = x+4 impl cong(y,0,6)));
