rlset ofsf$
rlqe ex({x,y,z},(z-2*x-y <= 0-1 and 2*y-2*x-3*z <= 0-7 and 3*z-2*x-2*y <= 5 and y+2*z-2*x <= 6 and x+y+z <= 7 and x+y-2*z <= 0-2 and y-3*x-2*z <= 0-7 and 2*x+z-y <= 4));
