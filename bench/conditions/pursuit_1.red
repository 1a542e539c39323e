% shortest answer: 4 atoms
rlset ofsf$
rlqe all({c1,d1},((0-1 <= c1 and c1 <= 1 and 0-1 <= d1 and d1 <= 1) impl ex({a1,b1},(0-2 <= a1 and a1 <= 2 and 0-2 <= b1 and b1 <= 2 and 0-1 <= x+a1-c1 and x+a1-c1 <= 1 and 0-1 <= y+b1-d1 and y+b1-d1 <= 1))));
