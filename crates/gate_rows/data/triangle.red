% Which sides a and b has a triangle of perimeter 12?
rlqe ex(c, a + b + c = 12 and a < b + c and b < a + c and c < a + b);
% No side is half of the perimeter or more.
rlqe all({a,b,c}, a + b + c = 12 and a < b + c and b < a + c and c < a + b impl a < 6 and b < 6 and c < 6);
