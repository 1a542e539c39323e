(declare-const n Int)
(assert (exists ((x1 Int) (x2 Int) (x3 Int) (x4 Int) (x5 Int)) (and (>= x1 0) (>= x2 0) (>= x3 0) (>= x4 0) (>= x5 0) (= (+ (* 7 x1) (* 11 x2) (* 13 x3) (* 17 x4) (* 19 x5)) n))))
(apply qe)
