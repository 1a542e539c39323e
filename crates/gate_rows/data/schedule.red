% A task of 3 hours and after it one of 2: which deadlines d can be met?
rlqe ex({s,t}, s >= 0 and t >= s + 3 and t + 2 <= d);
% The same for tasks of p and q hours.
rlqe(ex({s,t}, s >= 0 and t >= s + p and t + q <= d), {p >= 0, q >= 0});
% A task may begin when both machines are free, from 4 and from 6 on.
rlqe ex(s, s >= 4 and s >= 6 and s + 3 <= d);
