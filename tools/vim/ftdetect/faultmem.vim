" A script of faultmem.
autocmd BufNewFile,BufRead *.script setfiletype faultmem
