rlset ofsf$
rlqe ex({x,y,z},(0-2*x-y-3*z <= 0-11 and x+y-2*z <= 0-3 and z-3*x-3*y <= 0-4 and 3*y+3*z-x <= 14));
