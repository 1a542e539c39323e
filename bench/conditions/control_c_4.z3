(declare-const c Real)
(declare-const x Real)
(assert (exists ((u1 Real)) (and (<= (* (- 1) c) u1) (<= u1 c) (forall ((d1 Real)) (=> (and (<= (- 1) d1) (<= d1 1)) (and (<= (- 10) (+ x u1 d1)) (<= (+ x u1 d1) 10) (exists ((u2 Real)) (and (<= (* (- 1) c) u2) (<= u2 c) (forall ((d2 Real)) (=> (and (<= (- 1) d2) (<= d2 1)) (and (<= (- 10) (+ x u1 d1 u2 d2)) (<= (+ x u1 d1 u2 d2) 10) (exists ((u3 Real)) (and (<= (* (- 1) c) u3) (<= u3 c) (forall ((d3 Real)) (=> (and (<= (- 1) d3) (<= d3 1)) (and (<= (- 10) (+ x u1 d1 u2 d2 u3 d3)) (<= (+ x u1 d1 u2 d2 u3 d3) 10) (exists ((u4 Real)) (and (<= (* (- 1) c) u4) (<= u4 c) (forall ((d4 Real)) (=> (and (<= (- 1) d4) (<= d4 1)) (and (<= (- 10) (+ x u1 d1 u2 d2 u3 d3 u4 d4)) (<= (+ x u1 d1 u2 d2 u3 d3 u4 d4) 10))))))))))))))))))))))
(apply qe)
