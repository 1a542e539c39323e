% Formulas bound to names, and asked about later.
f := ex(x, a < x and x < b);
g := rlqe f;
h := rlnnf(not g)$
h;
rlholds(g, {a = 1/3, b = 1/2});
rlholds(f, {a = 1, b = 1});
