" Schedules and choices of Brisk.
if exists("b:current_syntax")
  finish
endif

syntax match briskLine "^\%(brisk \%(schedule\|choices\)\|size\|input\|event\|turns\|choose\|end\)\>"
syntax match briskWord " \zs\%(from\|at\)\ze "
syntax keyword briskTruth true false
syntax match briskNumber "-\?\<[0-9]\+\>"

highlight default link briskLine Statement
highlight default link briskWord Keyword
highlight default link briskTruth Boolean
highlight default link briskNumber Number

let b:current_syntax = "briskschedule"
