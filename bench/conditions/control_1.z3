(declare-const x Real)
(assert (exists ((u1 Real)) (and (<= (- 2) u1) (<= u1 2) (forall ((d1 Real)) (=> (and (<= (- 1) d1) (<= d1 1)) (and (<= (- 10) (+ (* 2 x) u1 d1)) (<= (+ (* 2 x) u1 d1) 10)))))))
(apply qe)
