" Syntax of netconf's description language.
if exists('b:current_syntax')
  finish
endif

syntax case match

syntax keyword netconfDeclaration agent vectors unit module use for in end begin
syntax keyword netconfPart is accept map to and at over kind page slots reach as
syntax keyword netconfSort num node
syntax keyword netconfCommand resolve lookup view grant route revoke dump split absorb
" These words are not reserved: each is a command where a name comes next.
syntax match netconfCommand "\%(\%(^\|;\)\s*\)\@<=\%(radix\|gather\)\>\ze\s\+\%(is\>\)\@!\h"

" A number, and what begins as one and is none.
syntax match netconfBadNumber "\<\d\w*\>"
syntax match netconfNumber "\<\d\+\>\|\<0x\x\+\>"

" The access behind a command.
syntax match netconfAccess "\%(\<for\s\+\)\@<=\%(read\|write\)\>"

" A name with an index.
syntax match netconfIndexed "\<\h\w*\ze\["
syntax match netconfOperator "[+*]\|\.\."

syntax keyword netconfTodo contained TODO FIXME XXX
syntax match netconfComment "//.*$" contains=netconfTodo,@Spell
" A claim, which netconf-query judges.
syntax match netconfClaim "//!.*$"

highlight default link netconfDeclaration Statement
highlight default link netconfPart Keyword
highlight default link netconfClaim PreProc
highlight default link netconfSort Type
highlight default link netconfAccess Keyword
highlight default link netconfCommand Function
highlight default link netconfNumber Number
highlight default link netconfBadNumber Error
highlight default link netconfIndexed Identifier
highlight default link netconfOperator Operator
highlight default link netconfTodo Todo
highlight default link netconfComment Comment

let b:current_syntax = 'netconf'
