rlset pasf$
rlqe ex({i,j},(0 <= i and i < n and 0 <= j and j < n and 2*i+p = j));
