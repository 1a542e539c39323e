% shortest answer: 0 atoms
rlset pasf$
rlqe (ex({it,ii},(0 <= ii and ii < 4 and i = 4*it+ii and 0 <= i and i < n)) equiv (0 <= i and i < n));
