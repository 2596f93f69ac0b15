autocmd BufNewFile,BufRead *.um setfiletype um
