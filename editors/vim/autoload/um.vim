" What the file type plugin and the compiler of um call.

let s:layout = expand("<sfile>:p:h:h") . "/bin/um-layout"

" The program `umc`, as a word of the shell.
function! um#Program() abort
  return shellescape(get(g:, "umc_program", "umc"))
endfunction

" What 'formatprg' is: the program's layout. A text that it refuses stays as it is.
function! um#FormatProgram() abort
  return shellescape(s:layout, 1) . " " . shellescape(get(g:, "umc_program", "umc"), 1)
endfunction

" The names of a text: those that are declared anywhere, with the types of the functions before the cursor's.
function! um#Complete(findstart, base) abort
  if a:findstart
    let before = strpart(getline("."), 0, col(".") - 1)
    return strlen(substitute(before, "'\\=\\k*$", "", ""))
  endif
  let types = um#Types()
  let found = []
  for name in um#Names()
    if stridx(name, a:base) == 0
      call add(found, {"word": name, "menu": get(types, name, "")})
    endif
  endfor
  return found
endfunction

" The type of each function that is declared before the cursor's declaration; none if the program refuses that text.
function! um#Types() abort
  let here = search('^\%(let\|type\|\[<\)', "bcnW")
  let lines = here > 1 ? systemlist(um#Program() . " types", getline(1, here - 1)) : []
  let found = {}
  if here > 1 && v:shell_error == 0
    for line in lines
      let parts = matchlist(line, '^\(\S\+\) : \(.*\)$')
      let found[parts[1]] = parts[2]
    endfor
  endif
  return found
endfunction

" The names that the text declares, each once, in order.
function! um#Names() abort
  let text = join(map(getline(1, "$"), {_, line -> substitute(line, "//.*", "", "")}), "\n")
  let found = []
  let declared = '\%(\<let\_s\+\%(rec\_s\+\)\=\|\<type\_s\+\|[({;]\_s*\|::\_s*\||\_s*\%(\k\+\_s*::\)\@=\)'
        \ . '\zs\%(\d\@!\k\+\)\|''\k\+'
  let at = 0
  while 1
    let [name, start, end] = matchstrpos(text, declared, at)
    if start < 0
      return found
    endif
    let at = max([end, at + 1])
    if name !~# '^\%(let\|rec\|if\|match\|not\|pown\|true\|false\|_\)$' && index(found, name) < 0
      call add(found, name)
    endif
  endwhile
endfunction

" Columns of a report are characters, and those of Vim's lists are bytes: puts the places of the list right.
function! um#PutColumnsRight() abort
  let list = getqflist()
  for entry in list
    if entry.valid && entry.lnum > 0 && entry.col > 0 && entry.nr > 0 && bufnr(entry.bufnr) > 0
      call bufload(entry.bufnr)
      let line = get(getbufline(entry.bufnr, entry.lnum), 0, "")
      let entry.col = byteidx(line, entry.col - 1) + 1
    endif
  endfor
  call setqflist([], "r", {"items": list})
endfunction
