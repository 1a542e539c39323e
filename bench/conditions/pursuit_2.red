% shortest answer: 4 atoms
rlset ofsf$
rlqe all({c1,d1},((0-1 <= c1 and c1 <= 1 and 0-1 <= d1 and d1 <= 1) impl ex({a1,b1},(0-2 <= a1 and a1 <= 2 and 0-2 <= b1 and b1 <= 2 and all({c2,d2},((0-1 <= c2 and c2 <= 1 and 0-1 <= d2 and d2 <= 1) impl ex({a2,b2},(0-2 <= a2 and a2 <= 2 and 0-2 <= b2 and b2 <= 2 and 0-1 <= x+a1+a2-c1-c2 and x+a1+a2-c1-c2 <= 1 and 0-1 <= y+b1+b2-d1-d2 and y+b1+b2-d1-d2 <= 1))))))));
