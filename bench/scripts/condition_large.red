rlset pasf$
rlqe all({i,m,s},((((4*i <= s and i <= m) and i < m) impl (4*i+4 <= s+4 and i+1 <= m)) and (((4*i <= s and i <= m) and i >= m) impl s >= 4*m)));
