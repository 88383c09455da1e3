autocmd BufRead,BufNewFile *.carol setfiletype carol
