autocmd BufRead,BufNewFile *.red setfiletype redlog
