% The sum of two odd numbers is even, and which numbers are twice another.
rlset pasf$
rlqe all({x,y}, cong(x,1,2) and cong(y,1,2) impl cong(x + y,0,2));
rlqe ex(x, 2*x = a);
% No number leaves 1 by 4 and is even.
rlqe ex(x, cong(x,1,4) and cong(x,0,2));
