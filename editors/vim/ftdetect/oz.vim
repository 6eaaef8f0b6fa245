autocmd BufRead,BufNewFile *.oz setfiletype oz
