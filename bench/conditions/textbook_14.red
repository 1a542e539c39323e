% shortest answer: 0 atoms
rlset pasf$
rlqe ex({i},(0 <= k-4*i and k-4*i < 4));
