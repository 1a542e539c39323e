(declare-const n Int)
(declare-const p Int)
(assert (exists ((i Int) (j Int)) (and (<= 0 i) (< i n) (<= 0 j) (< j n) (= (+ (* 8 i) p) j))))
(apply qe)
