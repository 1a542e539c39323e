rlset pasf$
rlqe ex({x},(a < x and x < b and not (cong(x,0,2)) and not (cong(x,0,3)) and not (cong(x,0,5)) and not (cong(x,0,7))));
