" Vim syntax of pulse files of gos.
if exists("b:current_syntax")
  finish
endif

syntax match gospulsesStatement /^\s*\zs\(cycles\|next\|at\)\ze\(\s\|$\)/
syntax match gospulsesEvent /\.\zs\(run\|done\|ask\|ans\|read\|write\)\>/
syntax match gospulsesNumber /\s\zs\d\+\>/
syntax match gospulsesComment /^\s*#.*$/ contains=@Spell

highlight default link gospulsesStatement Statement
highlight default link gospulsesEvent Type
highlight default link gospulsesNumber Number
highlight default link gospulsesComment Comment

let b:current_syntax = "gospulses"
