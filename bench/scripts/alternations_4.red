rlset ofsf$
rlqe all({x},ex({y},(x < y and all({z},((x < z and z < y) impl ex({w},(z < w and ((x <= w and w <= y+1) or (x+1 <= w and w <= y+2) or (x+2 <= w and w <= y+3) or (x+3 <= w and w <= y+4)))))))));
