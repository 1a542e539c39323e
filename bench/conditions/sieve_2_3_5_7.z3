(declare-const a Int)
(declare-const b Int)
(assert (exists ((x Int)) (and (< a x) (< x b) (not (= (mod x 2) 0)) (not (= (mod x 3) 0)) (not (= (mod x 5) 0)) (not (= (mod x 7) 0)))))
(apply qe)
