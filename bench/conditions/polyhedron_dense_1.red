rlset ofsf$
rlqe ex({x1},(2*a+2*x1-2*b <= 6 and a+3*x1-3*b <= 9 and 2*b-2*a-2*x1 <= 5 and a+3*b-2*x1 <= 6 and a-3*b-x1 <= 4 and x1-2*a-3*b <= 9 and x1-a-2*b <= 6 and 3*b+x1-2*a <= 7 and x1-2*a-3*b <= 8 and 0-a-2*b-3*x1 <= 6));
