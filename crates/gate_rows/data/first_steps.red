% A formula at a point, in normal form, and as a condition without quantifiers.
rlholds(2*x + 1 >= 2 and not x = 1, {x = 1/2});
6 <= 4*x;
rlqe ex(x, x > a and x < b);
rlqe all(x, x > a impl x > b);
