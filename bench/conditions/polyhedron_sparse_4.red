rlset ofsf$
rlqe ex({x1,x2,x3,x4,x5,x6},(3*x3+a <= 8 and a-3*b <= 9 and 2*a-b-x3 <= 3 and 3*b-3*x3 <= 5 and 3*b+3*x1-x2 <= 6 and x4+2*x6 <= 4 and 0-x2-3*x6 <= 9 and 3*a+2*x3-x1 <= 4 and x5+x3-2*x1 <= 4 and a-3*x3-3*x5 <= 5 and x6-2*x4-3*b <= 4 and x3+3*b+2*x1 <= 6 and 3*a-3*x4 <= 4 and x1-2*x2-a <= 1 and 0-3*x4-x6 <= 6 and 0-x4-2*x1 <= 7 and x6-2*x3 <= 5 and 2*x3-2*x2 <= 6));
