(declare-const v Real)
(declare-const x Real)
(assert (exists ((u1 Real)) (and (<= (- 2) u1) (<= u1 2) (forall ((d1 Real) (e1 Real)) (=> (and (<= (- 1) d1) (<= d1 1) (<= (- 1) e1) (<= e1 1)) (and (<= (- 10) (+ x v u1 d1 e1)) (<= (+ x v u1 d1 e1) 10) (<= (- 5) (+ v u1 d1)) (<= (+ v u1 d1) 5)))))))
(apply qe)
