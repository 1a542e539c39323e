(set-logic LIA)
(assert (forall ((i Int) (m Int) (s Int)) (and (=> (and (and (<= i s) (<= i m)) (< i m)) (and (<= (+ i 1) (+ s 1)) (<= (+ i 1) m))) (=> (and (and (<= i s) (<= i m)) (>= i m)) (>= s m)))))
(check-sat)
