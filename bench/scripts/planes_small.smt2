(set-logic LRA)
(assert (exists ((x Real) (y Real) (z Real)) (and (<= (+ (* (- 2) x) (* (- 1) y) (* (- 3) z)) (- 11)) (<= (+ x y (* (- 2) z)) (- 3)) (<= (+ (* (- 3) x) (* (- 3) y) z) (- 4)) (<= (+ (* (- 1) x) (* 3 y) (* 3 z)) 14))))
(check-sat)
