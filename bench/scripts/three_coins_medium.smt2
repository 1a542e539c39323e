(set-logic LIA)
(assert (forall ((n Int)) (=> (>= n 2) (exists ((x1 Int) (x2 Int) (x3 Int)) (and (>= x1 0) (>= x2 0) (>= x3 0) (= n (+ (* 2 x1) (* 3 x2) (* 4 x3))))))))
(check-sat)
