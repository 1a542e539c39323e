(declare-const a Int)
(declare-const b Int)
(assert (exists ((x Int)) (and (= (mod (+ x (* (- 1) a)) 12) 0) (= (mod (+ x (* (- 1) b)) 18) 0))))
(apply qe)
