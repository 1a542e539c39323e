(declare-const i Int)
(assert (exists ((it Int) (ii Int)) (and (<= 0 ii) (< ii 16) (= i (+ (* 16 it) ii)) (<= 0 it))))
(apply qe)
