(declare-const c Real)
(declare-const x Real)
(assert (exists ((u1 Real)) (and (<= (* (- 1) c) u1) (<= u1 c) (forall ((d1 Real)) (=> (and (<= (- 1) d1) (<= d1 1)) (and (<= (- 10) (+ x u1 d1)) (<= (+ x u1 d1) 10)))))))
(apply qe)
