rlset ofsf$
rlqe ex({p1},(0 <= p1 and p1 <= 4 and all({d1},((1 <= d1 and d1 <= 2) impl (b-2 <= t+p1+d1 and t+p1+d1 <= b and ex({p2},(0 <= p2 and p2 <= 4 and all({d2},((1 <= d2 and d2 <= 2) impl (2*b-2 <= t+p1+d1+p2+d2 and t+p1+d1+p2+d2 <= 2*b))))))))));
