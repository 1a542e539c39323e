rlset pasf$
rlqe ex({x},(cong(x-a,0,3) and cong(x-b,0,5) and cong(x-c,0,7) and cong(x-d,0,11) and 0 <= x and x < 1000));
