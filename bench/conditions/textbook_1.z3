(declare-const a Real)
(declare-const b Real)
(assert (exists ((x Real)) (and (< a x) (< x b))))
(apply qe)
