rlset ofsf$
rlqe all({x},ex({y},(x < y and all({z},((x < z and z < y) impl ex({w},(z < w and (x <= w and w <= y+1))))))));
