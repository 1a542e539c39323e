(declare-const a Real)
(declare-const b Real)
(assert (exists ((x Real)) (and (< 0 x) (< x 1) (not (= x a)) (not (= x b)))))
(apply qe)
