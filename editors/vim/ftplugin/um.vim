" Vim file type plugin
" Language: um, programs with units of measure
" g:umc_program is the program `umc`; where it isn't set, that of PATH. `gq` with its `tidy` lays out a whole file.

if exists("b:did_ftplugin")
  finish
endif
let b:did_ftplugin = 1

setlocal commentstring=//\ %s
setlocal comments=://
setlocal formatoptions-=t formatoptions+=croql
setlocal expandtab shiftwidth=2 softtabstop=2
setlocal suffixesadd=.um
setlocal omnifunc=um#Complete
let &l:formatprg = um#FormatProgram()

let b:undo_ftplugin = "setlocal commentstring< comments< formatoptions< expandtab< shiftwidth< softtabstop<"
      \ . " suffixesadd< omnifunc< formatprg<"
