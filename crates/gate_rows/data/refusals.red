% What is not answered says why and where, and changes nothing.
rlqe ex(x, x*y > 1);
rlholds(x > z, {x = 1});
f;
f := x > 0$
x > 0 and;
f;
