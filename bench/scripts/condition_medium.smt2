(set-logic LIA)
(assert (forall ((i Int) (m Int) (s Int)) (and (=> (and (and (<= (* 2 i) s) (<= i m)) (< i m)) (and (<= (+ (* 2 i) 2) (+ s 2)) (<= (+ i 1) m))) (=> (and (and (<= (* 2 i) s) (<= i m)) (>= i m)) (>= s (* 2 m))))))
(check-sat)
