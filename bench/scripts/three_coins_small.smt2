(set-logic LIA)
(assert (forall ((n Int)) (=> (>= n 0) (exists ((x1 Int) (x2 Int) (x3 Int)) (and (>= x1 0) (>= x2 0) (>= x3 0) (= n (+ x1 (* 2 x2) (* 3 x3))))))))
(check-sat)
