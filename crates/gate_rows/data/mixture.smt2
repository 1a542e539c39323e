; Ten litres of a mixture of 35 percent, from two of 20 and of 50 percent.
(set-logic QF_LRA)
(declare-const weak Real)
(declare-const strong Real)
(assert (and (>= weak 0) (>= strong 0)))
(assert (= (+ weak strong) 10))
(assert (= (+ (* 0.2 weak) (* 0.5 strong)) (* 0.35 10)))
(check-sat)
(get-value (weak strong))
; Is there one with more of the weak than of the strong?
(assert (> weak strong))
(check-sat)
