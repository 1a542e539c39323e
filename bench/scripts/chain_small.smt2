(set-logic LRA)
(assert (exists ((x1 Real) (x2 Real) (x3 Real) (x4 Real)) (and (< 0 x1) (< x1 x2) (< x2 x3) (< x3 x4) (< x4 1))))
(check-sat)
