(set-logic LIA)
(assert (exists ((x Int)) (and (= (mod (+ x (- 1)) 7) 0) (= (mod (+ x (- 2)) 9) 0) (= (mod (+ x (- 3)) 11) 0) (= (mod (+ x (- 4)) 13) 0))))
(check-sat)
