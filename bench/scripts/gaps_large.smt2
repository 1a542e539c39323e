(set-logic LRA)
(assert (forall ((a Real) (b Real)) (=> (< a b) (exists ((x Real)) (and (< a x) (< x b) (not (= x (+ a 1))) (not (= x (+ a 2))) (not (= x (+ a 3))) (not (= x (+ a 4))) (not (= x (+ a 5))) (not (= x (+ a 6))) (not (= x (+ a 7))) (not (= x (+ a 8))) (not (= x (+ a 9))) (not (= x (+ a 10))) (not (= x (+ a 11))) (not (= x (+ a 12))) (not (= x (+ a 13))) (not (= x (+ a 14))) (not (= x (+ a 15))) (not (= x (+ a 16))) (not (= x (+ a 17))) (not (= x (+ a 18))) (not (= x (+ a 19))) (not (= x (+ a 20))))))))
(check-sat)
