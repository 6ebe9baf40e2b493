" Vim syntax of build files of gos.
if exists("b:current_syntax")
  finish
endif

syntax match gosbuildStatement /^\s*\zs\(gosbuild\|inst\|bind\|root\|net\|verilog\|pulses\|trace\)\ze\(\s\|$\)/
syntax match gosbuildNumber /\<\d\+\>/
syntax match gosbuildComment /^\s*#.*$/ contains=@Spell

highlight default link gosbuildStatement Statement
highlight default link gosbuildNumber Number
highlight default link gosbuildComment Comment

let b:current_syntax = "gosbuild"
