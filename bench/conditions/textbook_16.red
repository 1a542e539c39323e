% shortest answer: 0 atoms
rlset pasf$
rlqe ex({q,r},(n = 7*q+r and 0 <= r and r < 7));
