% shortest answer: 6 atoms
rlset pasf$
rlqe ex({i,j,k,rin,sin,tin},(0 <= i and i < n and 0 <= j and j < n and 0 <= k and k < n and i = 4*r+rin and 0 <= rin and rin < 4 and j = 4*s+sin and 0 <= sin and sin < 4 and k = 4*t+tin and 0 <= tin and tin < 4));
