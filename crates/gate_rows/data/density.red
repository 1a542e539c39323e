% Between two numbers there is another, and between two whole ones there need be none.
rlqe all({x,y}, x < y impl ex(z, x < z and z < y));
rlset pasf;
rlqe all({x,y}, x < y impl ex(z, x < z and z < y));
rlqe all({x,y}, x + 1 < y impl ex(z, x < z and z < y));
