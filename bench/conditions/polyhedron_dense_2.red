rlset ofsf$
rlqe ex({x1,x2},(3*b+2*x1-2*a-x2 <= 3 and 2*a+3*b+3*x1+2*x2 <= 3 and a+2*x1+x2-b <= 1 and 3*a+2*b+2*x1+2*x2 <= 9 and 3*b+x1+x2-2*a <= 4 and 2*a-2*b-3*x1-3*x2 <= 3 and 2*a+2*b+x1+2*x2 <= 4 and 3*a+2*b+2*x1-2*x2 <= 8 and 2*a+b+3*x1+x2 <= 2 and 2*b-2*a-3*x1-x2 <= 7 and 3*a+2*x1+x2-2*b <= 7 and a-2*b-2*x1-x2 <= 4));
