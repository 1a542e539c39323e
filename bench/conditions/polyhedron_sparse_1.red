rlset ofsf$
rlqe ex({x1,x2,x3},(0-x3-3*a <= 8 and x3-3*x2-3*a <= 7 and x3+3*x1-a <= 4 and 0-3*x1-3*a <= 9 and x2+3*b <= 1 and 2*x2-2*x3 <= 6 and 0-b-3*x2 <= 7 and 3*x1-3*b <= 6 and 2*b+x2-x3 <= 9 and 3*a+b-2*x3 <= 7 and x3-3*x1 <= 9 and x2-b <= 1 and 2*a+2*x1+2*x2 <= 7 and 0-3*b-2*x3 <= 9 and 2*x2-x1 <= 8));
