(declare-const x Int)
(assert (forall ((y Int)) (=> (= y (+ x 4)) (= (mod y 6) 0))))
(apply qe)
