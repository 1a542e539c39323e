rlset ofsf$
rlqe ex({x1,x2,x3},(3*a-2*x1-3*b <= 3 and x2-2*x1 <= 9 and 3*b-3*x3 <= 4 and 0-2*x1-3*b-2*x2 <= 8 and 0-3*b-2*a <= 4 and 0-b-2*x1 <= 9 and b-x3 <= 1 and 0-x2-3*b-a <= 5 and 0-3*x3-x1 <= 6 and x2+x1+3*a <= 3 and 3*x1-a <= 7 and x2-x3 <= 1 and 0-2*a-3*b-2*x1 <= 8 and x1-x3-3*x2 <= 6 and 2*x3-2*a-x2 <= 6 and 3*x1+2*x3 <= 2 and 3*x3-3*x1-2*a <= 5 and 2*b+2*a+x2 <= 1 and x1-x3 <= 7));
