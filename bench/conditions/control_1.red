% shortest answer: 2 atoms
rlset ofsf$
rlqe ex({u1},(0-2 <= u1 and u1 <= 2 and all({d1},((0-1 <= d1 and d1 <= 1) impl (0-10 <= 2*x+u1+d1 and 2*x+u1+d1 <= 10)))));
