rlset ofsf$
rlqe ex({u1},(0-c <= u1 and u1 <= c and all({d1},((0-1 <= d1 and d1 <= 1) impl (0-10 <= x+u1+d1 and x+u1+d1 <= 10 and ex({u2},(0-c <= u2 and u2 <= c and all({d2},((0-1 <= d2 and d2 <= 1) impl (0-10 <= x+u1+d1+u2+d2 and x+u1+d1+u2+d2 <= 10))))))))));
