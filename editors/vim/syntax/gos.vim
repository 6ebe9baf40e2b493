" Vim syntax of sources of gos.
if exists("b:current_syntax")
  finish
endif

syntax keyword gosModule import export
syntax keyword gosForm fun fst snd if then else while do new in
syntax keyword gosConstant skip
syntax keyword gosOperator not
syntax keyword gosType com exp var
syntax match gosNumber /\<\d\+\>/
syntax match gosSign /:=\|||\|->\|[][;:.,+&^|=<!*()-]/
syntax match gosComment /#.*$/ contains=@Spell

highlight default link gosModule Include
highlight default link gosForm Statement
highlight default link gosConstant Constant
highlight default link gosOperator Operator
highlight default link gosType Type
highlight default link gosNumber Number
highlight default link gosSign Operator
highlight default link gosComment Comment

let b:current_syntax = "gos"
