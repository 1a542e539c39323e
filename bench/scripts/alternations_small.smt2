(set-logic LRA)
(assert (forall ((x Real)) (exists ((y Real)) (and (< x y) (forall ((z Real)) (=> (and (< x z) (< z y)) (exists ((w Real)) (and (< z w) (and (<= x w) (<= w (+ y 1)))))))))))
(check-sat)
