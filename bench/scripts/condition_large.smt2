(set-logic LIA)
(assert (forall ((i Int) (m Int) (s Int)) (and (=> (and (and (<= (* 4 i) s) (<= i m)) (< i m)) (and (<= (+ (* 4 i) 4) (+ s 4)) (<= (+ i 1) m))) (=> (and (and (<= (* 4 i) s) (<= i m)) (>= i m)) (>= s (* 4 m))))))
(check-sat)
