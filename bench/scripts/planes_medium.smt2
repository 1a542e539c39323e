(set-logic LRA)
(assert (exists ((x Real) (y Real) (z Real)) (and (<= (+ (* 3 x) y (* 3 z)) 14) (<= (+ x (* 3 y) (* (- 1) z)) 4) (<= (+ (* (- 3) x) (* (- 2) y) (* 2 z)) 1) (<= (+ x (* 3 y) (* 2 z)) 14) (<= (+ (* (- 1) x) (* 3 y) (* (- 3) z)) (- 3)) (<= (+ x (* 3 y) (* (- 2) z)) 3))))
(check-sat)
