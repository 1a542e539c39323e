% A robot stands somewhere in the square from 0 to 1, and moves along (2,1) for at most 2 units of time.
% Where can it be? rlqe gives the condition, and rlgrid a picture of it: the line is cut after each eleventh
% digit, by
%     redlog < region.red | tail -n 1 | sh picture.sh 11

reach := rlqe ex({u,v,t}, 0 <= u and u <= 1 and 0 <= v and v <= 1 and 0 <= t and t <= 2 and x = u + 2*t and y = v + t)$

% one point, and the edge of the region
rlholds(reach, {x = 3, y = 3/2});
rlgrid(reach, {y,0,0,1}, {x,0,5,1/2});

% the whole region: a row for each y from 0 to 3, x from 0 to 5 along it
rlgrid(reach, {y,0,3,1/2}, {x,0,5,1/2});
