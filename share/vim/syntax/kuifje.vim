" Vim syntax of Kuifje programs.
if exists('b:current_syntax')
    finish
endif

syntax case match
syntax iskeyword @,48-57,_

" words: written by .ci/tables
syntax keyword kuifjeDeclaration var vis
syntax keyword kuifjeTarget about old
syntax keyword kuifjeType bool set of
syntax keyword kuifjeStatement skip observe
syntax keyword kuifjeConditional if else
syntax keyword kuifjeRepeat while
syntax keyword kuifjeDistribution uniform choose flip
syntax keyword kuifjeTruth true false
syntax keyword kuifjeOperatorWord or and not in union less div mod inter xor implies subset
syntax keyword kuifjeFunction size cond min max abs
syntax match kuifjeSign "\V:=\|..\|!=\|<=\|>=\|:\|;\|,\|(\|)\|{\|}\|.\|/\|=\|<\|>\|+\|-\|*"
" to here

syntax match kuifjeNumber "\<\d\+\>"
syntax match kuifjeComment "#.*$" contains=kuifjeTodo,@Spell
syntax keyword kuifjeTodo contained TODO FIXME

highlight default link kuifjeDeclaration StorageClass
highlight default link kuifjeTarget StorageClass
highlight default link kuifjeType Type
highlight default link kuifjeStatement Statement
highlight default link kuifjeConditional Conditional
highlight default link kuifjeRepeat Repeat
highlight default link kuifjeDistribution Statement
highlight default link kuifjeTruth Boolean
highlight default link kuifjeOperatorWord Operator
highlight default link kuifjeFunction Function
highlight default link kuifjeNumber Number
highlight default link kuifjeSign Operator
highlight default link kuifjeComment Comment
highlight default link kuifjeTodo Todo

let b:current_syntax = 'kuifje'
