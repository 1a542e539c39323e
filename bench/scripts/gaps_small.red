rlset ofsf$
rlqe all({a,b},(a < b impl ex({x},(a < x and x < b and x <> a+1 and x <> a+2))));
