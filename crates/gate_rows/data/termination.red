% A game with two counters: a step takes 1 from x and puts 2 on y, or takes 1 from y. No counter goes below 0.
% Does every play end? It does where some a*x + b*y, with a and b not negative, goes down by 1 at least in each step.
% It changes by 2*b - a or by -b, so constraints on a and b alone say which will do. Those with the least sum:
rlopt({a >= 0, b >= 0, a - 2*b >= 1, b >= 1}, a + b);
% If the second step also put 1 on x, none would do: the last three constraints add up to 0 >= 2. And then a play may
% go on for ever, since the two steps, one after the other, put 1 on y.
rlcert({a >= 0, b >= 0, a - 2*b >= 1, b - a >= 1});

% The steps themselves, over the whole numbers, from x and y to u and v: no counter goes below 0, 3*x + y goes down
% by 1, and x + y does not always go down. A step in which it grows:
rlset pasf$
step := (x > 0 and u = x - 1 and v = y + 2) or (y > 0 and u = x and v = y - 1)$
rlqe all({x,y,u,v}, x >= 0 and y >= 0 and step impl u >= 0 and v >= 0);
rlqe all({x,y,u,v}, x >= 0 and y >= 0 and step impl 3*u + v = 3*x + y - 1);
rlwitness(all({x,y,u,v}, x >= 0 and y >= 0 and step impl u + v < x + y), {});
% No step is left only where both counters are 0, so a play from x and y ends after 3*x + y steps, whichever they are.
rlqe(not ex({u,v}, step), {x >= 0, y >= 0});

% How many may the first step put on y, for 3*x + y to go down by 1 at least?
rlqe all({x,y}, x > 0 and y >= 0 impl 3*(x - 1) + (y + k) <= 3*x + y - 1);
% The weakest precondition of y <= k, and the strongest postcondition of y = 0:
rlqe(all({u,v}, step impl v <= k), {x >= 0, y >= 0});
rlqe ex({x,y}, x >= 0 and y = 0 and step);
