% shortest answer: 4 atoms
rlset ofsf$
rlqe ex({x},(a <= x and x <= b and c <= x and x <= d));
