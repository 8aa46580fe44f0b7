" Sources and sequential texts of Brisk.
if exists("b:current_syntax")
  finish
endif

syntax keyword briskDeclaration enum channel one many nonempty loose var input
syntax keyword briskKind int bool
syntax keyword briskTruth true false
syntax keyword briskMessage send to recv from any in
syntax keyword briskControl if else while for repeat
syntax keyword briskSequential begin end box pick
syntax match briskNumber "\<[0-9]\+\>"
syntax match briskSize "#\s*\k\+"
syntax match briskComment "//.*$" contains=@Spell

highlight default link briskDeclaration Structure
highlight default link briskKind Type
highlight default link briskTruth Boolean
highlight default link briskMessage Statement
highlight default link briskControl Conditional
highlight default link briskSequential Keyword
highlight default link briskNumber Number
highlight default link briskSize Identifier
highlight default link briskComment Comment

setlocal commentstring=//\ %s shiftwidth=2 expandtab
let b:current_syntax = "brisk"
