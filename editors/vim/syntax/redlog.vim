" Vim syntax file of redlog's scripts. The words are those of docs/LANGUAGE.md, section "Tokens".
if exists("b:current_syntax")
  finish
endif

" Letters count by case. A name has ASCII letters, digits and _.
syntax case match
syntax iskeyword 65-90,97-122,48-57,_

syntax keyword redlogCommand rlqe rlqea rlsimpl rlnnf rlpnf rldnf rlcnf rlholds rlwitness rlgrid rlcert rlcheck rlopt
syntax keyword redlogCommand rlassume rlretract load_package on off end bye quit
syntax keyword redlogCommand rlset nextgroup=redlogTheory skipwhite skipempty
syntax keyword redlogQuantifier ex all
syntax keyword redlogConnective not and or impl repl equiv
syntax keyword redlogRelation cong ncong neq
syntax keyword redlogConstant true false

" Where several of these match at one place, the last one counts. The first takes the bytes that begin no token.
syntax match redlogError "[^ \t\r]"
syntax match redlogSign "[-+*/^(){},]"
syntax match redlogRelation "<=\|>=\|<>\|[=<>]"
syntax match redlogAssign ":="
syntax match redlogEnd "[;$]"
syntax match redlogNumber "\d\+"
syntax match redlogName "\a\w*"
syntax match redlogError "\a\w\{64,}"
syntax match redlogAnswer "\%(infinity\|epsilon\)\d\+\>"
syntax match redlogTheory "\c\%(ofsf\|reals\|r\|pasf\|integers\|z\)\>" contained
syntax match redlogComment "%.*" contains=@Spell

highlight default link redlogCommand Statement
highlight default link redlogTheory Type
highlight default link redlogQuantifier Keyword
highlight default link redlogConnective Operator
highlight default link redlogRelation Operator
highlight default link redlogAssign Operator
highlight default link redlogConstant Boolean
highlight default link redlogNumber Number
highlight default link redlogAnswer Special
highlight default link redlogEnd Delimiter
highlight default link redlogComment Comment
highlight default link redlogError Error

let b:current_syntax = "redlog"
