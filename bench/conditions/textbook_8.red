% shortest answer: 2 atoms
rlset ofsf$
rlqe ex({m},(a <= m and b <= m and m <= c));
