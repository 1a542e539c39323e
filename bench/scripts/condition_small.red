rlset pasf$
rlqe all({i,m,s},((((i <= s and i <= m) and i < m) impl (i+1 <= s+1 and i+1 <= m)) and (((i <= s and i <= m) and i >= m) impl s >= m)));
