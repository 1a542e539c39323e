% shortest answer: 1 atoms
rlset ofsf$
rlqe all({x,y},((0 <= x and 0 <= y and x+y <= 1) impl x+2*y <= a));
