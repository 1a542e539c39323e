% Simplification alone, and under what is known.
rlsimpl(x > 0 and (y > 0 or x <= 0));
rlsimpl(x >= 0 and x <> 0);
rlsimpl(x > 1 and y > 0, {x > 2});
rlqe(ex(x, x > a and x < b), {a < b});
