(set-logic LRA)
(assert (exists ((s1 Real) (s2 Real) (s3 Real) (s4 Real)) (and (>= s1 0) (>= s2 0) (>= s3 0) (>= s4 0) (<= (+ s1 1) 10) (<= (+ s2 2) 10) (<= (+ s3 3) 10) (<= (+ s4 4) 10) (or (<= (+ s1 1) s2) (<= (+ s2 2) s1)) (or (<= (+ s1 1) s3) (<= (+ s3 3) s1)) (or (<= (+ s1 1) s4) (<= (+ s4 4) s1)) (or (<= (+ s2 2) s3) (<= (+ s3 3) s2)) (or (<= (+ s2 2) s4) (<= (+ s4 4) s2)) (or (<= (+ s3 3) s4) (<= (+ s4 4) s3)))))
(check-sat)
