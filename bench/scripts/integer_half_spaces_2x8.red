rlset pasf$
rlqe ex({x,y},(x+4*y <= 0*a+3 and x+3*y <= a+4 and x+2*y <= 0*a+2 and y-x <= 0*a+8 and 2*x+y <= a+6 and 0-x-y <= 0*a+9 and 4*x+2*y <= 0*a+3 and 3*x+y <= 0*a+3));
