rlset pasf$
rlqe ex({x},(cong(x-1,0,7) and cong(x-2,0,9) and cong(x-3,0,11) and cong(x-4,0,13)));
