(set-logic LRA)
(assert (forall ((a Real) (b Real)) (=> (< a b) (exists ((x Real)) (and (< a x) (< x b) (not (= x (+ a 1))) (not (= x (+ a 2))))))))
(check-sat)
