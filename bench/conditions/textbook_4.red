% shortest answer: 1 atoms
rlset ofsf$
rlqe ex({x},((a < x and x < b) or (b < x and x < a)));
