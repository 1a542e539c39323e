% Two intervals that are not empty: when do they meet?
rlqe(ex(x, a <= x and x <= b and c <= x and x <= d), {a <= b, c <= d});
% Some point is in the first and not in the second.
rlqe ex(x, 0 <= x and x <= 1 and not (c <= x and x <= d));
% Where do they meet? In both cases one begins inside the other. And a point where two given ones do.
rlqea(ex(x, a <= x and x <= b and c <= x and x <= d), {a <= b, c <= d});
rlwitness(ex(x, a <= x and x <= b and c <= x and x <= d), {a = 0, b = 2, c = 1, d = 3});
rlwitness(ex(x, a <= x and x <= b and c <= x and x <= d), {a = 0, b = 1, c = 2, d = 3});
