% shortest answer: 2 atoms
rlset pasf$
rlqe all({i},((0 <= i and i < n) impl i+1 < m));
