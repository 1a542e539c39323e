(declare-const h Real)
(declare-const w Real)
(assert (exists ((x1 Real) (y1 Real) (x2 Real) (y2 Real)) (and (<= 0 x1) (<= (+ x1 2) w) (<= 0 y1) (<= (+ y1 3) h) (<= 0 x2) (<= (+ x2 2) w) (<= 0 y2) (<= (+ y2 1) h) (or (<= (+ x1 2) x2) (<= (+ x2 2) x1) (<= (+ y1 3) y2) (<= (+ y2 1) y1)))))
(apply qe)
