rlset ofsf$
rlqe ex({u1},(0-2 <= u1 and u1 <= 2 and all({d1,e1},((0-1 <= d1 and d1 <= 1 and 0-1 <= e1 and e1 <= 1) impl (0-10 <= x+v+u1+d1+e1 and x+v+u1+d1+e1 <= 10 and ex({u2},(0-2 <= u2 and u2 <= 2 and all({d2,e2},((0-1 <= d2 and d2 <= 1 and 0-1 <= e2 and e2 <= 1) impl (0-10 <= x+2*v+2*u1+2*d1+e1+u2+d2+e2 and x+2*v+2*u1+2*d1+e1+u2+d2+e2 <= 10))))))))));
