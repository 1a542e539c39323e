(declare-const a Real)
(assert (forall ((x Real) (y Real)) (=> (and (<= 0 x) (<= 0 y) (<= (+ x y) 1)) (<= (+ x (* 2 y)) a))))
(apply qe)
