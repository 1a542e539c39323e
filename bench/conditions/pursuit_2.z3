(declare-const x Real)
(declare-const y Real)
(assert (forall ((c1 Real) (d1 Real)) (=> (and (<= (- 1) c1) (<= c1 1) (<= (- 1) d1) (<= d1 1)) (exists ((a1 Real) (b1 Real)) (and (<= (- 2) a1) (<= a1 2) (<= (- 2) b1) (<= b1 2) (forall ((c2 Real) (d2 Real)) (=> (and (<= (- 1) c2) (<= c2 1) (<= (- 1) d2) (<= d2 1)) (exists ((a2 Real) (b2 Real)) (and (<= (- 2) a2) (<= a2 2) (<= (- 2) b2) (<= b2 2) (<= (- 1) (+ x a1 (* (- 1) c1) a2 (* (- 1) c2))) (<= (+ x a1 (* (- 1) c1) a2 (* (- 1) c2)) 1) (<= (- 1) (+ y b1 (* (- 1) d1) b2 (* (- 1) d2))) (<= (+ y b1 (* (- 1) d1) b2 (* (- 1) d2)) 1))))))))))
(apply qe)
