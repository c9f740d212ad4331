" How descriptions are edited; Neovim starts the language server as well, where the program is found.
" g:edd_program names it where `edd` is not on the PATH. docs/EDITORS.md lists the keys.
if exists("b:did_ftplugin")
  finish
endif
let b:did_ftplugin = 1
setlocal commentstring=//\ %s comments=s1:/*,mb:*,ex:*/,://
setlocal expandtab shiftwidth=4 softtabstop=4
setlocal foldmethod=syntax foldlevel=99
command! -buffer EddFormat call edd#Format()
" `gg=G` lays the whole text out; other lines are indented by the file in indent/.
nnoremap <buffer> <silent> <expr> =G line(".") == 1 && executable(edd#Program()) ? ":\<C-u>EddFormat\<CR>" : "=G"
let b:undo_ftplugin = "setlocal commentstring< comments< expandtab< shiftwidth< softtabstop< foldmethod< foldlevel<"
      \ . " | silent! execute 'nunmap <buffer> =G' | silent! delcommand EddFormat"

call edd#Start()
