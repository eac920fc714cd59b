" Sheets of cardhouse. No word is reserved, so that a name that is spelled as a fixed word is shown as one.
if exists("b:current_syntax")
  finish
endif

syntax case match
" What an atom is made of: all that can be printed but parentheses, the semicolon and the comma.
syntax iskeyword 33-39,42-43,45-58,60-126

syntax keyword cardsheetWord game setup scoring create players teams deck put points
syntax keyword cardsheetWord do stage player team end choice if any all
syntax keyword cardsheetWord move remember forget shuffle peek set inc dec repeat cycle next reverse top bottom
syntax keyword cardsheetWord current of max min using filter union known partition size sum is and or not attr
syntax keyword cardsheetKind vloc iloc hloc mem sto
syntax keyword cardsheetSign + - * = != < <= > >=

syntax match cardsheetVariable /\v%(^|[ \t,()])@1<='[^ \t,();]*/
syntax match cardsheetNumber /\v%(^|[ \t,()])@1<=-?\d{1,18}%($|[ \t\r,();])@=/
syntax match cardsheetComment /;.*$/

highlight default link cardsheetWord Keyword
highlight default link cardsheetKind Type
highlight default link cardsheetSign Operator
highlight default link cardsheetVariable Identifier
highlight default link cardsheetNumber Number
highlight default link cardsheetComment Comment

let b:current_syntax = "cardsheet"
