% shortest answer: 1 atoms
rlset pasf$
rlqe ex({x},(cong(x-a,0,12) and cong(x-b,0,18)));
