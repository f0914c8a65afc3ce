" Reads what `swt check --explain` says, which is `FILE:LINE:COLUMN: RULE NAME: words`; the other lines are left out.
if exists("current_compiler")
  finish
endif
let current_compiler = "swt"
CompilerSet makeprg=swt\ check\ --explain\ %:S
CompilerSet errorformat=%f:%l:%c:\ %m,%-G%.%#
