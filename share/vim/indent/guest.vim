" Indents of guest programs: one more after each brace that a line leaves open, one less where a line begins by closing one.
if exists("b:did_indent")
  finish
endif
let b:did_indent = 1

setlocal indentexpr=GuestIndent(v:lnum)
setlocal indentkeys=0},!^F,o,O
setlocal nolisp nosmartindent
let b:undo_indent = "setlocal indentexpr< indentkeys< lisp< smartindent<"

if exists("*GuestIndent")
  finish
endif

" How many braces of a line stay open: those that it opens after those that it closes of earlier lines.
function! s:LeftOpen(text)
  let open = 0
  for mark in split(substitute(a:text, '#.*$', '', ''), '\zs')
    if mark ==# '{'
      let open += 1
    elseif mark ==# '}' && open > 0
      let open -= 1
    endif
  endfor
  return open
endfunction

function! GuestIndent(number)
  let before = prevnonblank(a:number - 1)
  if before == 0
    return 0
  endif
  let opens = s:LeftOpen(getline(before)) > 0 ? 1 : 0
  let closes = getline(a:number) =~# '^\s*}' ? 1 : 0
  return indent(before) + (opens - closes) * shiftwidth()
endfunction
