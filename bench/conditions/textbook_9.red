% shortest answer: 1 atoms
rlset ofsf$
rlqe all({x},(a < x impl b < x));
