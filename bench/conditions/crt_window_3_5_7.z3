(declare-const a Int)
(declare-const b Int)
(assert (exists ((x Int)) (and (= (mod (+ x (- 1)) 3) 0) (= (mod (+ x (- 2)) 5) 0) (= (mod (+ x (- 3)) 7) 0) (<= a x) (<= x b))))
(apply qe)
