" Derivations of Brisk.
if exists("b:current_syntax")
  finish
endif

syntax match briskLine "^\%(brisk derivation\|part\|endpart\|use\|end\)\>"
syntax match briskRule "^\%(assign\|fill\|pass\|take\|known\)\>"
syntax match briskCompound "^\%(branch\|else\|join\|while\|for\|repeat\|gather\|pick\|close\)\>"
syntax match briskWord " \zs\%(by\|drop\)\>"
syntax match briskNumber "\<[0-9]\+\>"

highlight default link briskLine Statement
highlight default link briskRule Function
highlight default link briskCompound Conditional
highlight default link briskWord Keyword
highlight default link briskNumber Number

let b:current_syntax = "briskderivation"
