(set-logic LIA)
(assert (exists ((x Int)) (and (= (mod (+ x (- 1)) 3) 0) (= (mod (+ x (- 2)) 5) 0))))
(check-sat)
