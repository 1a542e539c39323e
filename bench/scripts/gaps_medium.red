rlset ofsf$
rlqe all({a,b},(a < b impl ex({x},(a < x and x < b and x <> a+1 and x <> a+2 and x <> a+3 and x <> a+4 and x <> a+5 and x <> a+6 and x <> a+7 and x <> a+8))));
