(set-logic LRA)
(assert (exists ((s1 Real) (s2 Real) (s3 Real)) (and (>= s1 0) (>= s2 (+ s1 1)) (>= s3 (+ s2 2)) (<= (+ s1 1) 6) (<= (+ s2 2) 6) (<= (+ s3 3) 6))))
(check-sat)
