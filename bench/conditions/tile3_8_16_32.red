% shortest answer: 6 atoms
rlset pasf$
rlqe ex({i,j,k,rin,sin,tin},(0 <= i and i < n and 0 <= j and j < n and 0 <= k and k < n and i = 8*r+rin and 0 <= rin and rin < 8 and j = 16*s+sin and 0 <= sin and sin < 16 and k = 32*t+tin and 0 <= tin and tin < 32));
