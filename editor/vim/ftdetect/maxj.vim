autocmd BufRead,BufNewFile *.maxj setfiletype maxj
