rlset ofsf$
rlqe ex({x1,x2,x3,x4,x5,x6,x7,x8,x9,x10,x11,x12,x13,x14,x15,x16},(0 < x1 and x1 < x2 and x2 < x3 and x3 < x4 and x4 < x5 and x5 < x6 and x6 < x7 and x7 < x8 and x8 < x9 and x9 < x10 and x10 < x11 and x11 < x12 and x12 < x13 and x13 < x14 and x14 < x15 and x15 < x16 and x16 < 1));
