" `:make` tells the fault of a sheet, and where it has none what in it is likely a mistake. `g:cardhouse` is the program; where it isn't
" told, that is the one in this folder or in the nearest above the sheet, else the one of the repository of this file or on the path.
if exists("current_compiler")
  finish
endif
let current_compiler = "cardhouse"

let s:here = expand("<sfile>:p")

function s:found() abort
  let above = fnamemodify(resolve(s:here), ":h:h:h:h") .. "/cardhouse"
  for name in ["cardhouse", findfile("cardhouse", escape(expand("%:p:h"), " ,;") .. ";"), above]
    if filereadable(name) && executable(fnamemodify(name, ":p"))
      return shellescape(fnamemodify(name, ":p"))
    endif
  endfor
  return "cardhouse"
endfunction

" The sheet in canonical form isn't wanted.
let s:program = exists("g:cardhouse") ? g:cardhouse : s:found()
let s:make = "(" .. s:program .. " --explain sheet %:S 2>&1 >/dev/null && " .. s:program .. " lint %:S)"
execute "CompilerSet makeprg=" .. escape(s:make, ' \|"')

CompilerSet errorformat=%f:%l:%c:\ %m
