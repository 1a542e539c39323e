rlset pasf$
rlqe all({i,m,s},((((2*i <= s and i <= m) and i < m) impl (2*i+2 <= s+2 and i+1 <= m)) and (((2*i <= s and i <= m) and i >= m) impl s >= 2*m)));
