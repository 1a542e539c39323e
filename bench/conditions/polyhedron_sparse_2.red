rlset ofsf$
rlqe ex({x1,x2,x3,x4},(0-a-2*x4 <= 5 and 2*x3+3*b-2*a <= 7 and 2*x4+x3+2*x1 <= 5 and a-x1 <= 7 and 0-2*x3-2*b-3*x4 <= 3 and 2*b+3*x4+2*x1 <= 3 and 2*x2-x3-x1 <= 8 and 3*x2+2*x4 <= 4 and 3*x1+x2+x4 <= 6 and 3*x2+2*x1-2*b <= 5 and 3*x4-x1-2*x2 <= 8 and 3*x3-x4-3*a <= 4 and 3*a-3*x3 <= 5 and 2*x4-2*a <= 5 and b+3*a <= 1 and 0-2*x1-2*x4 <= 1));
