" Plans of cardhouse.
if exists("b:current_syntax")
  finish
endif

syntax case match
" What an atom is made of: all that can be printed but parentheses, the semicolon and the comma.
syntax iskeyword 33-39,42-43,45-58,60-126

syntax keyword cardplanWord plan seats matches from turns
syntax keyword cardplanStrategy script random rollout

syntax match cardplanNumber /\v%(^|[ \t,()])@1<=\d{1,18}%($|[ \t\r,();])@=/
syntax match cardplanComment /;.*$/

highlight default link cardplanWord Keyword
highlight default link cardplanStrategy Function
highlight default link cardplanNumber Number
highlight default link cardplanComment Comment

let b:current_syntax = "cardplan"
