% shortest answer: 0 atoms
rlset pasf$
rlqe ex({x},(cong(x-a,0,2) and cong(x-b,0,3) and cong(x-c,0,5) and cong(x-d,0,7) and cong(x-e,0,11) and cong(x-f,0,13) and cong(x-g,0,17)));
