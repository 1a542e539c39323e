% shortest answer: 1 atoms
rlset pasf$
rlqe ex({it,ii},(0 <= ii and ii < 16 and i = 16*it+ii and 0 <= it));
