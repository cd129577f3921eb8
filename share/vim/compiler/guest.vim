" What `ctxbound check --short` says of the file, in the quickfix list: `:make`.
if exists("current_compiler")
  finish
endif
let current_compiler = "guest"

CompilerSet makeprg=ctxbound\ check\ --short\ %:S
CompilerSet errorformat=%f:%l:%c:\ %trror\ %m,%f:%l:%c:\ %tarning\ %m,%f:%l:%c:\ %temark\ %m,
  \%f:%l:\ %trror\ %m,%f:%l:\ %tarning\ %m,%f:%l:\ %temark\ %m,%-G%.%#
