% shortest answer: 2 atoms
rlset ofsf$
rlqe ex({p,q},(0 <= p and 0 <= q and p+q = 1 and 2*p+5*q = c));
