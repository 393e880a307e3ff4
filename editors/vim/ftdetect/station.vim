autocmd BufNewFile,BufRead *.script setfiletype station
