% shortest answer: 2 atoms
rlset ofsf$
rlqe ex({u1},(0-2 <= u1 and u1 <= 2 and all({d1},((0-1 <= d1 and d1 <= 1) impl (0-10 <= 2*x+u1+d1 and 2*x+u1+d1 <= 10 and ex({u2},(0-2 <= u2 and u2 <= 2 and all({d2},((0-1 <= d2 and d2 <= 1) impl (0-10 <= 4*x+2*u1+2*d1+u2+d2 and 4*x+2*u1+2*d1+u2+d2 <= 10))))))))));
