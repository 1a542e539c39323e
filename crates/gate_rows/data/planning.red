% A plan with numbers, where there is one: two tasks and a deadline.
rlwitness(ex({s,t}, s >= 0 and t >= s + 3 and t + 2 <= d), {d = 6});
rlwitness(ex({s,t}, s >= 0 and t >= s + 3 and t + 2 <= d), {d = 4});
% In whole numbers: how many coins of 3 and of 5 make up the sum?
rlset pasf$
rlwitness(ex({x,y}, x >= 0 and y >= 0 and 3*x + 5*y = c), {c = 11});
rlwitness(ex({x,y}, x >= 0 and y >= 0 and 3*x + 5*y = c), {c = 7});
% For all the values are a counterexample: where a loop that goes on by 2 passes its bound.
rlwitness(all({i,n}, 0 <= i and i < n impl i + k <= n), {k = 2});
