" Vim syntax file for ForeC programs (*.forec). Words, marks, numbers and comments are those of docs/LANGUAGE.md.
if exists("b:current_syntax")
  finish
endif
let s:cpo = &cpo
set cpo&vim

syntax case match

syntax keyword forecType int void
syntax keyword forecStorage const input output shared
syntax keyword forecCombine combine with all new mod
syntax keyword forecThread par pause
syntax keyword forecAbort weak abort when immediate
syntax keyword forecConditional if else
syntax keyword forecRepeat while for
syntax keyword forecReturn return
syntax keyword forecTodo contained TODO FIXME XXX

syntax match forecFunction "\<\h\w*\>\ze\_s*("
syntax match forecOperator "[-+*/%&|^~!<>=?:]"

" A byte that begins no token, and a run with a digit first that is no number. What follows may match it as a number.
syntax match forecError "[\"'.\\@$`]\|[^\d0-\d127]"
syntax match forecError "\<\d\w*\>"
syntax match forecNumber "\<0[xX]0*\x\{1,8}\>"
syntax match forecNumber "\<0\+\%([1-3]\o\{10}\|\o\{1,10}\)\>"
syntax match forecNumber "\<\%(0\|[1-9]\d\{,8}\|[1-3]\d\{9}\|4[01]\d\{8}\|42[0-8]\d\{7}\|429[0-3]\d\{6}\)\>"
syntax match forecNumber "\<\%(4294[0-8]\d\{5}\|42949[0-5]\d\{4}\|429496[0-6]\d\{3}\|4294967[01]\d\d\|42949672[0-8]\d\|429496729[0-5]\)\>"

" The bound of a loop: while (e) #20 { .. }
syntax match forecBound "#\_s*\%(0[xX]\x\+\|\d\+\)\>"

syntax region forecBlock start="{" end="}" transparent fold
syntax match forecComment "//.*$" contains=forecTodo,@Spell
syntax region forecComment start="/\*" end="\*/" contains=forecTodo,@Spell fold
syntax sync ccomment forecComment minlines=50

highlight default link forecType Type
highlight default link forecStorage StorageClass
highlight default link forecCombine StorageClass
highlight default link forecThread Statement
highlight default link forecAbort Exception
highlight default link forecConditional Conditional
highlight default link forecRepeat Repeat
highlight default link forecReturn Statement
highlight default link forecFunction Function
highlight default link forecOperator Operator
highlight default link forecNumber Number
highlight default link forecBound Special
highlight default link forecComment Comment
highlight default link forecTodo Todo
highlight default link forecError Error

let b:current_syntax = "forec"
let &cpo = s:cpo
unlet s:cpo
