(declare-const a Int)
(assert (exists ((x Int)) (and (< a (* 2 x)) (< (* 2 x) (+ a 2)))))
(apply qe)
