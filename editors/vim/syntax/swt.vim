" Colours for scripts of swt.
if exists("b:current_syntax")
  finish
endif
syntax keyword swtType int string boolean
syntax keyword swtControl if else foreach in wait
syntax keyword swtImport import
syntax keyword swtTruth true false
syntax keyword swtBuiltin printf assert strcat fromint toint size
syntax match swtNumber "\<\(0\|[1-9][0-9]*\)\>"
syntax match swtPriority "@prio"
syntax match swtEscape contained "\\[nt\\\"]"
syntax match swtConversion contained "%[ids%]"
syntax region swtString start=+"+ skip=+\\.+ end=+"+ oneline contains=swtEscape,swtConversion
syntax match swtComment "//.*$"
syntax region swtComment start="/\*" end="\*/"
highlight default link swtType Type
highlight default link swtControl Conditional
highlight default link swtImport Include
highlight default link swtTruth Boolean
highlight default link swtBuiltin Function
highlight default link swtNumber Number
highlight default link swtPriority PreProc
highlight default link swtEscape SpecialChar
highlight default link swtConversion SpecialChar
highlight default link swtString String
highlight default link swtComment Comment
let b:current_syntax = "swt"
