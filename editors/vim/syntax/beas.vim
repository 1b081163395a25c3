" Vim syntax file of beas scripts, made by scripts/make-editors
if exists("b:current_syntax")
  finish
endif
syn case ignore
syn keyword beasStatement access and as between by create cross delete discover distinct drop except explain fetch from group inner insert into join limit load on select table union values where count max min ok scan specialise sum step
syn keyword beasType int integer text
" reserved, and in no statement
syn keyword beasUnused all case exists full having in intersect is left like natural not null offset or order outer right using with
syn match beasNumber "\<\d\+\>"
syn region beasText start=+'+ skip=+''+ end=+'+
syn match beasComment "--.*$"
hi def link beasStatement Statement
hi def link beasType Type
hi def link beasUnused Error
hi def link beasNumber Number
hi def link beasText String
hi def link beasComment Comment
let b:current_syntax = "beas"
