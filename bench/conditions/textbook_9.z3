(declare-const a Real)
(declare-const b Real)
(assert (forall ((x Real)) (=> (< a x) (< b x))))
(apply qe)
