% shortest answer: 1 atoms
rlset pasf$
rlqe ex({it,ii},(0 <= ii and ii < 32 and i = 32*it+ii and 0 <= it));
