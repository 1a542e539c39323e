(declare-const n Int)
(assert (exists ((x Int) (y Int)) (= (+ (* 12 x) (* 18 y)) n)))
(apply qe)
