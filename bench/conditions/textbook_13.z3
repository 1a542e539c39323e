(declare-const a Int)
(assert (exists ((x Int)) (= (* 2 x) a)))
(apply qe)
