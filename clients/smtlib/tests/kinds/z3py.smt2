; benchmark generated from python API
(set-info :status unknown)
(declare-fun start_paint () Int)
(declare-fun start_dry () Int)
(declare-fun start_pack () Int)
(declare-fun late () Bool)
(assert
 (and (>= start_paint 0) (>= start_dry (+ start_paint 3)) (>= start_pack (+ start_dry 8))))
(assert
 (let (($x35 (<= (+ start_pack 2) 12)))
 (let (($x36 (not late)))
 (=> $x36 $x35))))
(assert
 (let ((?x20 (* 2 start_paint)))
 (let ((?x21 (+ ?x20 (* (- 1) start_dry))))
 (>= ?x21 (- 4)))))
(check-sat)
(assert (not late))
(check-sat)
