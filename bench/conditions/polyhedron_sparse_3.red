rlset ofsf$
rlqe ex({x1,x2,x3,x4,x5},(0-2*x3-x5 <= 8 and x3-a <= 9 and b+2*x4 <= 9 and 3*x4-2*x2-2*b <= 9 and 2*a-2*x4-3*x5 <= 5 and x5+2*x1 <= 7 and x2-2*x4-x3 <= 2 and 0-2*b-x2 <= 7 and 2*x2+2*x5-x3 <= 7 and 0-3*x1-x4 <= 3 and 3*x5+3*x4-3*x3 <= 4 and x1+3*a+x4 <= 2 and 0-2*x5-3*a-x2 <= 7 and 2*x5+2*a-3*x4 <= 7 and 0-2*x3-3*x1-x5 <= 1 and 2*a-3*x3 <= 4 and 3*x3-2*x1-3*x5 <= 6));
