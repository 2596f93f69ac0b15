" Vim compiler file
" Compiler: umc, which checks programs with units of measure
" g:umc_program is the program, `umc` where it isn't set. `:make` prints the schemes; the report line goes to the
" quickfix list. umc reads the text from its standard input and names no file, so a line before it does.

if exists("current_compiler")
  finish
endif
let current_compiler = "umc"

" umc counts columns by characters, and Vim by bytes.
augroup um_columns
  autocmd!
  autocmd QuickFixCmdPost make if get(b:, "current_compiler", "") ==# "umc" | call um#PutColumnsRight() | endif
augroup END

let s:program = escape(get(g:, "umc_program", "umc"), ' \|"')
execute 'CompilerSet makeprg=(echo\ in\ %:p:S;\ ' . s:program . '\ types\ <\ %:p:S)'
CompilerSet errorformat=%-Pin\ %f,error\ %n:\ %m\ at\ %l:%c,error\ %n:\ %m,%-G%.%#
