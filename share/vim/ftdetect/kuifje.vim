autocmd BufRead,BufNewFile *.kf setfiletype kuifje
