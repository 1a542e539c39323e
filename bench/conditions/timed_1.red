rlset ofsf$
rlqe ex({p1},(0 <= p1 and p1 <= 4 and all({d1},((1 <= d1 and d1 <= 2) impl (b-2 <= t+p1+d1 and t+p1+d1 <= b)))));
