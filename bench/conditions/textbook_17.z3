(declare-const m Int)
(declare-const n Int)
(assert (forall ((i Int)) (=> (and (<= 0 i) (< i n)) (< (+ i 1) m))))
(apply qe)
