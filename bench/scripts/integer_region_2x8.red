rlset pasf$
rlqe ex({x,y},(y-2*x <= 3*a+0*b-3 and 3*x+2*y < 0*a+0*b-1 and 3*y-x <= 0*a+5-2*b and y-x <= a+3*b+1 and 0*y-2*x <= b+3-2*a and 3*y-x <= 0*a+6-b and 3*y-x < 3*b+3-3*a and x-3*y <= 3-2*a-b));
