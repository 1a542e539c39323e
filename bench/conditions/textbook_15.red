% shortest answer: 3 atoms
rlset pasf$
rlqe ex({i},(0 <= i and i < n and k = 2*i));
