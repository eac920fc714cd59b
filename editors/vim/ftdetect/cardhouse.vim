" Sheets, plans and transcripts of cardhouse, by the names of their files.
autocmd BufNewFile,BufRead *.sheet setfiletype cardsheet
autocmd BufNewFile,BufRead *.plan setfiletype cardplan
autocmd BufNewFile,BufRead *.transcript,*.named setfiletype cardtranscript
