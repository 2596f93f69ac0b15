" Vim indent file
" Language: um, programs with units of measure
" A declaration begins a line. What goes on is indented; arms of a match stand under it.

if exists("b:did_indent")
  finish
endif
let b:did_indent = 1

setlocal indentexpr=GetUmIndent(v:lnum)
setlocal indentkeys=!^F,o,O,0),0],0},0\|,0=in,0=then,0=else,0=type,0=[<
let b:undo_indent = "setlocal indentexpr< indentkeys<"

if exists("*GetUmIndent")
  finish
endif

" What a local `let` can follow; any other is a declaration.
let s:before_expression = '\%(=\|->\|[({[;]\|\<\%(in\|if\|then\|else\|match\)\)\s*$'

" The line without its comment.
function! s:Code(number) abort
  return substitute(getline(a:number), '\s*//.*$', "", "")
endfunction

function! GetUmIndent(number) abort
  let before = prevnonblank(a:number - 1)
  if before == 0 || getline(a:number) =~# '^\s*\%(type\>\|\[<\)'
    return 0
  endif
  let above = s:Code(before)
  let indent = indent(before)
  if getline(a:number) =~# '^\s*|' && above =~# '\<with\s*$'
    return indent
  endif
  if getline(a:number) =~# '^\s*let\>' && above !~# s:before_expression
    return 0
  endif
  if getline(a:number) =~# '^\s*[)\]}]'
    return indent > 0 ? indent - shiftwidth() : 0
  endif
  if above =~# '\%(=\|->\|\<then\|\<else\|[({[]\)\s*$'
    return indent + shiftwidth()
  endif
  return indent
endfunction
