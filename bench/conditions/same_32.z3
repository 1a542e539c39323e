(declare-const i Int)
(assert (exists ((it Int) (ii Int)) (and (<= 0 ii) (< ii 32) (= i (+ (* 32 it) ii)) (<= 0 it))))
(apply qe)
