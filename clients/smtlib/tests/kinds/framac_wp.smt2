;; as Frama-C/WP writes a goal: ranges of C types and addresses are functions with axioms
(set-info :smt-lib-version 2.6)
(set-logic AUFDTNIRA)
(declare-sort addr 0)
(declare-sort memory 0)
(declare-fun addrqtmk (Int Int) addr)
(declare-fun base (addr) Int)
(declare-fun offset (addr) Int)
(declare-fun shift (addr Int) addr)
(declare-fun length (memory Int) Int)
(declare-fun valid_rw (memory addr Int) Bool)
(declare-fun linked (memory) Bool)
(declare-fun region (Int) Int)
(declare-fun is_sint32 (Int) Bool)
;; base'def
(assert (forall ((u Int) (u1 Int)) (= (base (addrqtmk u u1)) u)))
;; offset'def
(assert (forall ((u Int) (u1 Int)) (= (offset (addrqtmk u u1)) u1)))
;; shift'def
(assert (forall ((p addr) (k Int)) (= (shift p k) (addrqtmk (base p) (+ (offset p) k)))))
;; valid_rw'def
(assert
  (forall ((m memory) (p addr) (n Int))
    (= (valid_rw m p n)
       (=> (< 0 n) (and (< 0 (base p)) (and (<= 0 (offset p)) (<= (+ (offset p) n) (length m (base p)))))))))
;; is_sint32_def
(assert
  (forall ((x Int))
    (! (= (is_sint32 x) (and (<= (- 2147483648) x) (< x 2147483648))) :pattern ((is_sint32 x)) )))
;; Goal wp_goal
(assert
  (not
  (forall ((t memory) (a addr) (i Int) (i1 Int))
    (=> (<= 0 i1)
      (=> (<= i i1)
        (=> (<= 0 i)
          (=> (< i i1)
            (=> (<= (region (base a)) 0)
              (=> (linked t)
                (=> (is_sint32 i1)
                  (=> (is_sint32 i)
                    (=> (valid_rw t (shift a 0) i1)
                      (and (valid_rw t (shift a i) 1) (is_sint32 (+ 1 i)))))))))))))))
(check-sat)
