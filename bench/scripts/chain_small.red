rlset ofsf$
rlqe ex({x1,x2,x3,x4},(0 < x1 and x1 < x2 and x2 < x3 and x3 < x4 and x4 < 1));
