% shortest answer: 1 atoms
rlset ofsf$
rlqe ex({x},(a < x and x < b));
