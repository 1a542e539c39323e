% A thermostat heats below lo and stops above hi; a step changes the temperature by at most w. That is said once.
rlassume {w > 0, hi - lo > w};
% Does one step lead from below the marks to above them? Is there room for a step up and a step down?
rlqe ex({x,y}, x <= lo and y >= hi and y - x <= w);
room := rlqe ex(x, x - w >= lo and x + w <= hi);
% The marks are set so that there is. From where?
rlassume {hi - lo >= 2*w, w > 0};
rlqea ex(x, x - w >= lo and x + w <= hi);
rlsimpl(hi - lo >= 2*w and x - w >= lo);
% A point is asked for itself: the assumptions are not looked at.
rlholds(room, {w = 1, hi = 20, lo = 19});
% Without them the first answer is a condition.
rlretract;
rlqe ex({x,y}, x <= lo and y >= hi and y - x <= w);
% Another theory begins without assumptions: here of n things that come in pairs.
rlset pasf;
rlassume {n > 0, cong(n,0,2)};
rlqe ex(x, 2*x = n and x > 0);
