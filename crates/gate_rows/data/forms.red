% Negation normal form, prenex form, cases and clauses.
rlnnf(not (x > 0 impl y = 0));
rlpnf(ex(x, x > 0) and all(y, y > a));
rldnf((x > 0 or y > 0) and z > 0);
rlcnf((x > 0 and y > 0) or z > 0);
