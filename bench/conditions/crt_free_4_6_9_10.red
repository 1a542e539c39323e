rlset pasf$
rlqe ex({x},(cong(x-a,0,4) and cong(x-b,0,6) and cong(x-c,0,9) and cong(x-d,0,10)));
