autocmd BufNewFile,BufRead *.osc setfiletype osc
