% shortest answer: 3 atoms
rlset ofsf$
rlqe all({x},((a <= x and x <= b) impl (c <= x and x <= d)));
