(declare-const a Real)
(declare-const b Real)
(assert (exists ((x Real)) (or (and (< a x) (< x b)) (and (< b x) (< x a)))))
(apply qe)
