(declare-const k Int)
(assert (exists ((i Int)) (and (<= 0 (+ k (* (- 4) i))) (< (+ k (* (- 4) i)) 4))))
(apply qe)
