% shortest answer: 1 atoms
rlset pasf$
rlqe ex({m},((2*m = a+b or 2*m+1 = a+b) and a <= m and m < b));
