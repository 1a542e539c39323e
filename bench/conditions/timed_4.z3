(declare-const b Real)
(declare-const t Real)
(assert (exists ((p1 Real)) (and (<= 0 p1) (<= p1 4) (forall ((d1 Real)) (=> (and (<= 1 d1) (<= d1 2)) (and (<= (+ b (- 2)) (+ t p1 d1)) (<= (+ t p1 d1) b) (exists ((p2 Real)) (and (<= 0 p2) (<= p2 4) (forall ((d2 Real)) (=> (and (<= 1 d2) (<= d2 2)) (and (<= (+ (* 2 b) (- 2)) (+ t p1 d1 p2 d2)) (<= (+ t p1 d1 p2 d2) (* 2 b)) (exists ((p3 Real)) (and (<= 0 p3) (<= p3 4) (forall ((d3 Real)) (=> (and (<= 1 d3) (<= d3 2)) (and (<= (+ (* 3 b) (- 2)) (+ t p1 d1 p2 d2 p3 d3)) (<= (+ t p1 d1 p2 d2 p3 d3) (* 3 b)) (exists ((p4 Real)) (and (<= 0 p4) (<= p4 4) (forall ((d4 Real)) (=> (and (<= 1 d4) (<= d4 2)) (and (<= (+ (* 4 b) (- 2)) (+ t p1 d1 p2 d2 p3 d3 p4 d4)) (<= (+ t p1 d1 p2 d2 p3 d3 p4 d4) (* 4 b)))))))))))))))))))))))
(apply qe)
