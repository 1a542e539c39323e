(declare-const a Int)
(declare-const b Int)
(assert (exists ((m Int)) (and (or (= (* 2 m) (+ a b)) (= (+ (* 2 m) 1) (+ a b))) (<= a m) (< m b))))
(apply qe)
