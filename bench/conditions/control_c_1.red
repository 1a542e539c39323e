rlset ofsf$
rlqe ex({u1},(0-c <= u1 and u1 <= c and all({d1},((0-1 <= d1 and d1 <= 1) impl (0-10 <= x+u1+d1 and x+u1+d1 <= 10)))));
