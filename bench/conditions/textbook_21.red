% shortest answer: 2 atoms
rlset pasf$
rlqe ex({i,j},(0 <= i and i < 16 and 0 <= j and j < n and k = 16*j+i));
