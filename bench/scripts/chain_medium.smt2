(set-logic LRA)
(assert (exists ((x1 Real) (x2 Real) (x3 Real) (x4 Real) (x5 Real) (x6 Real) (x7 Real) (x8 Real) (x9 Real) (x10 Real) (x11 Real) (x12 Real) (x13 Real) (x14 Real) (x15 Real) (x16 Real)) (and (< 0 x1) (< x1 x2) (< x2 x3) (< x3 x4) (< x4 x5) (< x5 x6) (< x6 x7) (< x7 x8) (< x8 x9) (< x9 x10) (< x10 x11) (< x11 x12) (< x12 x13) (< x13 x14) (< x14 x15) (< x15 x16) (< x16 1))))
(check-sat)
