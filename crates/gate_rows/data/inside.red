% A command inside a formula is answered first, and its answer stands in its place.
% Two tasks take 3 and 2 hours. Which deadlines can't be met?
rlnnf(not rlqe ex({s,t}, s >= 0 and t >= s + 3 and t + 2 <= d));
% An answer is simplified where a command around it says so.
rlqe ex(x, x < a) and a > 0;
rlsimpl(rlqe ex(x, x < a) and a > 0);
% In whole numbers: which sums up to 10 can be paid with coins of 3 and of 5? Which of them can't be paid with coins of 2 and of 7?
rlset pasf$
rlgrid(rlqe ex({x,y}, x >= 0 and y >= 0 and 3*x + 5*y = c), {c,0,10,1});
rlgrid(rlqe ex({x,y}, x >= 0 and y >= 0 and 3*x + 5*y = c) and not rlqe ex({x,y}, x >= 0 and y >= 0 and 2*x + 7*y = c), {c,0,10,1});
