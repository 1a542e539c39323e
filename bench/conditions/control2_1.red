rlset ofsf$
rlqe ex({u1},(0-2 <= u1 and u1 <= 2 and all({d1,e1},((0-1 <= d1 and d1 <= 1 and 0-1 <= e1 and e1 <= 1) impl (0-10 <= x+v+u1+d1+e1 and x+v+u1+d1+e1 <= 10 and 0-5 <= v+u1+d1 and v+u1+d1 <= 5)))));
