(declare-const n Int)
(assert (exists ((x1 Int) (x2 Int) (x3 Int)) (and (>= x1 0) (>= x2 0) (>= x3 0) (= (+ (* 30 x1) (* 42 x2) (* 70 x3)) n))))
(apply qe)
