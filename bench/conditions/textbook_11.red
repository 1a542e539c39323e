% shortest answer: 2 atoms
rlset ofsf$
rlqe all({m},(m = x+1 impl (m <= n and y <= m)));
