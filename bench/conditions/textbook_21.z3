(declare-const k Int)
(declare-const n Int)
(assert (exists ((i Int) (j Int)) (and (<= 0 i) (< i 16) (<= 0 j) (< j n) (= k (+ (* 16 j) i)))))
(apply qe)
