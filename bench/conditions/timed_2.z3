(declare-const b Real)
(declare-const t Real)
(assert (exists ((p1 Real)) (and (<= 0 p1) (<= p1 4) (forall ((d1 Real)) (=> (and (<= 1 d1) (<= d1 2)) (and (<= (+ b (- 2)) (+ t p1 d1)) (<= (+ t p1 d1) b) (exists ((p2 Real)) (and (<= 0 p2) (<= p2 4) (forall ((d2 Real)) (=> (and (<= 1 d2) (<= d2 2)) (and (<= (+ (* 2 b) (- 2)) (+ t p1 d1 p2 d2)) (<= (+ t p1 d1 p2 d2) (* 2 b)))))))))))))
(apply qe)
