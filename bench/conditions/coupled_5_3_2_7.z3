(declare-const p Int)
(declare-const q Int)
(assert (exists ((x Int) (y Int)) (and (= p (+ (* 5 x) (* 3 y))) (= q (+ (* 2 x) (* 7 y))) (<= 0 x) (<= 0 y))))
(apply qe)
