(declare-const n Int)
(assert (exists ((x Int) (y Int)) (and (<= 0 x) (<= 0 y) (= (+ (* 3 x) (* 5 y)) n))))
(apply qe)
