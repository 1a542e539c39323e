(set-logic LRA)
(assert (forall ((a Real) (b Real)) (=> (< a b) (exists ((x Real)) (and (< a x) (< x b) (not (= x (+ a 1))) (not (= x (+ a 2))) (not (= x (+ a 3))) (not (= x (+ a 4))) (not (= x (+ a 5))) (not (= x (+ a 6))) (not (= x (+ a 7))) (not (= x (+ a 8))))))))
(check-sat)
