(declare-const n Int)
(assert (exists ((q Int) (r Int)) (and (= n (+ (* 7 q) r)) (<= 0 r) (< r 7))))
(apply qe)
