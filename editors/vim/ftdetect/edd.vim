autocmd BufRead,BufNewFile *.edd setfiletype edd
" Others have files of these names as well: a file of tests says what it tests, and a script lies beside its description.
autocmd BufRead,BufNewFile *.test if search('\C^\s*\%(source\|image\)\s', 'nw') | setfiletype eddtest | endif
autocmd BufRead,BufNewFile *.script
      \ if filereadable(expand("<afile>:p:r") . ".edd") || filereadable(expand("<afile>:p:r:r") . ".edd") | setfiletype eddscript | endif
