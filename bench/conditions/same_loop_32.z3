(declare-const i Int)
(declare-const n Int)
(assert (= (exists ((it Int) (ii Int)) (and (<= 0 ii) (< ii 32) (= i (+ (* 32 it) ii)) (<= 0 i) (< i n))) (and (<= 0 i) (< i n))))
(apply qe)
