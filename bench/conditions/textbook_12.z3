(declare-const c Real)
(assert (exists ((p Real) (q Real)) (and (<= 0 p) (<= 0 q) (= (+ p q) 1) (= (+ (* 2 p) (* 5 q)) c))))
(apply qe)
