(declare-const k Int)
(declare-const n Int)
(assert (exists ((i Int)) (and (<= 0 i) (< i n) (= k (* 2 i)))))
(apply qe)
