(declare-const x Real)
(declare-const y Real)
(assert (forall ((c1 Real) (d1 Real)) (=> (and (<= (- 1) c1) (<= c1 1) (<= (- 1) d1) (<= d1 1)) (exists ((a1 Real) (b1 Real)) (and (<= (- 2) a1) (<= a1 2) (<= (- 2) b1) (<= b1 2) (<= (- 1) (+ x a1 (* (- 1) c1))) (<= (+ x a1 (* (- 1) c1)) 1) (<= (- 1) (+ y b1 (* (- 1) d1))) (<= (+ y b1 (* (- 1) d1)) 1))))))
(apply qe)
