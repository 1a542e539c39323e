(declare-const n Int)
(assert (exists ((x Int) (y Int)) (= (+ (* 1001 x) (* 1365 y)) n)))
(apply qe)
