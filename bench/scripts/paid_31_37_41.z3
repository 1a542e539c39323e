(declare-const n Int)
(assert (exists ((x1 Int) (x2 Int) (x3 Int)) (and (>= x1 0) (>= x2 0) (>= x3 0) (= (+ (* 31 x1) (* 37 x2) (* 41 x3)) n))))
(apply qe)
