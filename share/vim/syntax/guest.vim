" Syntax of guest programs, which ctxbound searches.
if exists("b:current_syntax")
  finish
endif

syntax case match
syntax match guestName "\<\h\w*\>"
syntax keyword guestDeclaration var mutex cond sem thread
syntax keyword guestStep load store add cas lock unlock wait signal broadcast acquire release
syntax keyword guestLocal set assert
syntax keyword guestControl if else repeat leave
syntax match guestNumber "\<\d\+\>"
syntax match guestOperator "==\|!=\|<=\|>=\|[-<>+*=]"
syntax match guestMark "[{};]"
syntax match guestComment "#.*$" contains=guestExpect
syntax match guestExpect "^\s*#\s*\(pragma\s\+\)\?\zsexpect:\s*\(bad\(\s\+\d\+\)\?\|failed\|stuck\|clean\)\s*$" contained

highlight default link guestName Identifier
highlight default link guestDeclaration Type
highlight default link guestStep Statement
highlight default link guestLocal Function
highlight default link guestControl Conditional
highlight default link guestNumber Number
highlight default link guestOperator Operator
highlight default link guestMark Delimiter
highlight default link guestComment Comment
highlight default link guestExpect SpecialComment

let b:current_syntax = "guest"
