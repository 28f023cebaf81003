" Colours for list programs and questions. Copy to ~/.vim/syntax/grass.vim, and use it by `:set syntax=grass`.
if exists("b:current_syntax")
  finish
endif

syntax keyword grassDeclaration struct var procedure returns
syntax keyword grassContract requires ensures invariant
syntax keyword grassStatement if else while return new free
syntax keyword grassAssertion emp acc lseg
syntax keyword grassType Node
syntax keyword grassConstant null
syntax keyword grassField next
syntax match grassOperator "&\*&\||->\|:=\|==\|!=\|&&\|||\|!"
syntax match grassComment "//.*$" contains=grassTodo
syntax keyword grassTodo contained TODO FIXME

highlight default link grassDeclaration Keyword
highlight default link grassContract PreProc
highlight default link grassStatement Statement
highlight default link grassAssertion Function
highlight default link grassType Type
highlight default link grassConstant Constant
highlight default link grassField Identifier
highlight default link grassOperator Operator
highlight default link grassComment Comment
highlight default link grassTodo Todo

let b:current_syntax = "grass"
