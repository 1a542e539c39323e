rlset pasf$
rlqe ex({x},(cong(x-1,0,3) and cong(x-2,0,5) and cong(x-3,0,7) and a <= x and x <= b));
