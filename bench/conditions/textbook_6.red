% shortest answer: 2 atoms
rlset ofsf$
rlqe ex({x,y},((0 <= x and 0 <= y and x+y <= 1) and x+2*y = a));
