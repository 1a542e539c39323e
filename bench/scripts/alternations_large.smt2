(set-logic LRA)
(assert (forall ((x Real)) (exists ((y Real)) (and (< x y) (forall ((z Real)) (=> (and (< x z) (< z y)) (exists ((w Real)) (and (< z w) (or (and (<= x w) (<= w (+ y 1))) (and (<= (+ x 1) w) (<= w (+ y 2))) (and (<= (+ x 2) w) (<= w (+ y 3))))))))))))
(check-sat)
