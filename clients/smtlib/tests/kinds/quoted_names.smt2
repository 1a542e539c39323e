; comments, odd blanks, quoted names
(set-logic	QF_LIA)
(declare-fun |a name with blanks; and (this)| ( ) Int) ; comment )
(declare-fun |let 1| () Int)
(declare-fun ~!@$%^&*_-+=<>.?/ () Int)
(assert(and(<|a name with blanks; and (this)| |let 1|)(< |let 1|
   ~!@$%^&*_-+=<>.?/)))(assert (= (+ |let 1| |let 1|) ;)
 (+ |a name with blanks; and (this)| ~!@$%^&*_-+=<>.?/) ))
(check-sat)(assert (= (- ~!@$%^&*_-+=<>.?/ |a name with blanks; and (this)|) 3))
(check-sat)