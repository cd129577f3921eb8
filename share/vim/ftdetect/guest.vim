autocmd BufRead,BufNewFile *.guest setfiletype guest
