" How a comment is written, and how lists are indented: as in Lisp, by two spaces, and never by a tab.
if exists("b:did_ftplugin")
  finish
endif
let b:did_ftplugin = 1

setlocal comments=:; commentstring=;\ %s
setlocal lisp autoindent shiftwidth=2 expandtab

" What stands below these heads is two spaces further right. Below other heads it is aligned with the part behind the head.
setlocal lispwords=game,setup,create,put,deck,do,stage,end,choice,any,all,if,repeat,move,scoring,plan

let b:undo_ftplugin = "setlocal comments< commentstring< lisp< autoindent< shiftwidth< expandtab< lispwords<"

" Plans have these settings too, and no `:make`, which reads a sheet alone.
if &filetype ==# "cardsheet"
  compiler cardhouse
  let b:undo_ftplugin .= " makeprg< errorformat<"
endif

" Older versions have no such option, and align what is in a list of lists with the second of them.
if exists("+lispoptions")
  setlocal lispoptions=expr:1 indentexpr=CardhouseIndent(v:lnum)
  let b:undo_ftplugin .= " lispoptions< indentexpr<"
endif

if exists("*CardhouseIndent")
  finish
endif

" No text has strings, so that a semicolon always begins a comment.
function s:is_comment() abort
  return stridx(strpart(getline("."), 0, col(".")), ";") >= 0
endfunction

" In a list of lists, as the entries of a point map are, each one stands below the first.
function CardhouseIndent(line) abort
  call cursor(a:line, 1)
  let [row, column] = searchpairpos("(", "", ")", "bnW", function("s:is_comment"))
  if row > 0 && getline(row)[column] ==# "("
    return virtcol([row, column])
  endif
  return lispindent(a:line)
endfunction
