% shortest answer: 0 atoms
rlset ofsf$
rlqe ex({x},(0 < x and x < 1 and x <> a and x <> b));
