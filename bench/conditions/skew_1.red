% shortest answer: 4 atoms
rlset pasf$
rlqe ex({i,j},(0 <= i and i < n and 0 <= j and j < m and t = i+j));
