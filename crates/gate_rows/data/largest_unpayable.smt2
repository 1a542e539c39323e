; The largest amount that coins of 3 and of 5 cannot pay.
(set-logic LIA)
(declare-fun n () Int)
(assert (>= n 0))
(assert (not (exists ((x Int) (y Int)) (and (>= x 0) (>= y 0) (= n (+ (* 3 x) (* 5 y)))))))
(assert (forall ((m Int))
  (=> (> m n) (exists ((x Int) (y Int)) (and (>= x 0) (>= y 0) (= m (+ (* 3 x) (* 5 y))))))))
(check-sat)
(get-value (n))
