% shortest answer: 2 atoms
rlset ofsf$
rlqe ex({x},(2*x = a+b and c <= x and x <= d));
