(set-logic LRA)
(assert (exists ((s1 Real) (s2 Real) (s3 Real) (s4 Real) (s5 Real) (s6 Real)) (and (>= s1 0) (>= s2 (+ s1 1)) (>= s3 (+ s2 2)) (>= s4 (+ s3 3)) (>= s5 (+ s4 4)) (>= s6 (+ s5 5)) (<= (+ s1 1) 21) (<= (+ s2 2) 21) (<= (+ s3 3) 21) (<= (+ s4 4) 21) (<= (+ s5 5) 21) (<= (+ s6 6) 21))))
(check-sat)
