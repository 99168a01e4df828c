autocmd BufRead,BufNewFile *.tm setfiletype treadmarks
