rlset ofsf$
rlqe all({a,b},(a < b impl ex({x},(a < x and x < b and x <> a+1 and x <> a+2 and x <> a+3 and x <> a+4 and x <> a+5 and x <> a+6 and x <> a+7 and x <> a+8 and x <> a+9 and x <> a+10 and x <> a+11 and x <> a+12 and x <> a+13 and x <> a+14 and x <> a+15 and x <> a+16 and x <> a+17 and x <> a+18 and x <> a+19 and x <> a+20))));
