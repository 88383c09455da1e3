" Vim syntax of Carol. The gate looks that every keyword of the language stands here.
if exists("b:current_syntax")
  finish
endif

syn keyword carolPart program scene script transcript end
syn keyword carolKind counter peak flag set record open shape
syn keyword carolDeclaration invariant guard op gives call
syn keyword carolStatement query under issue raise release let if else return
syn keyword carolWord and or not in size
syn keyword carolConstant true false
syn keyword carolStore here there result
syn keyword carolScene replicas tries workers gossipers session at times
syn keyword carolScript go gossip cut join
syn match carolNumber "\<\d\+\>"
syn match carolSign "[-+*<>=!]=\?"
syn match carolComment "#.*$"

hi def link carolPart PreProc
hi def link carolKind Type
hi def link carolDeclaration Keyword
hi def link carolStatement Statement
hi def link carolWord Operator
hi def link carolConstant Boolean
hi def link carolStore Identifier
hi def link carolScene Label
hi def link carolScript Statement
hi def link carolNumber Number
hi def link carolSign Operator
hi def link carolComment Comment

let b:current_syntax = "carol"
