" Indents ForeC programs as C is indented.
if exists("b:did_indent")
  finish
endif
let b:did_indent = 1

setlocal cindent cinoptions=

let b:undo_indent = "setlocal cindent< cinoptions<"
