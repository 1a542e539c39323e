(set-logic LIA)
(assert (forall ((n Int)) (=> (>= n 6) (exists ((x1 Int) (x2 Int)) (and (>= x1 0) (>= x2 0) (= n (+ (* 3 x1) (* 4 x2))))))))
(check-sat)
