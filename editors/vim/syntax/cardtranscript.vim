" Transcripts of cardhouse in both formats.
if exists("b:current_syntax")
  finish
endif

syntax case match

syntax match cardtranscriptWord /\v^%(house|match|choose|shuffles|end|score|standing) @=/
syntax match cardtranscriptPart /\v%( )@1<=%(deal|seats|strategy|points|done|limit) @=/
syntax match cardtranscriptNumber /\v%( )@1<=-?\d+%($| )@=/
" What an item takes: a player, a card or a group.
syntax match cardtranscriptMark /\v%( )@1<=[pcg]\d+%($| )@=/
" A line of the legend, whose words are those of the sheet.
syntax match cardtranscriptFace /^face .*$/

highlight default link cardtranscriptWord Keyword
highlight default link cardtranscriptPart Function
highlight default link cardtranscriptNumber Number
highlight default link cardtranscriptMark Identifier
highlight default link cardtranscriptFace String

let b:current_syntax = "cardtranscript"
