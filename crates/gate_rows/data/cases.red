% Not only whether there is such an x, but which: a little above a, where a is below b.
rlqea ex(x, x > a and x < b);
rlqea(ex(x, x > a and x < b), {a < b});
% Over the integers: the half of a, where a is even; and below every bound numbers that leave 1 by 3.
rlset pasf$
rlqea ex(x, 2*x = a);
rlqea ex(x, x < a and cong(x,1,3));
