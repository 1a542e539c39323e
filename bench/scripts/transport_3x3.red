rlset ofsf$
rlqe ex({x11,x12,x13,x21,x22,x23,x31,x32,x33},(x11 >= 0 and x12 >= 0 and x13 >= 0 and x21 >= 0 and x22 >= 0 and x23 >= 0 and x31 >= 0 and x32 >= 0 and x33 >= 0 and x11+x12+x13 <= a1 and x21+x22+x23 <= a2 and x31+x32+x33 <= a3 and x11+x21+x31 >= b1 and x12+x22+x32 >= b2 and x13+x23+x33 >= b3));
