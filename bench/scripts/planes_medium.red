rlset ofsf$
rlqe ex({x,y,z},(3*x+y+3*z <= 14 and x+3*y-z <= 4 and 2*z-3*x-2*y <= 1 and x+3*y+2*z <= 14 and 3*y-x-3*z <= 0-3 and x+3*y-2*z <= 3));
