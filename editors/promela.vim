" Vim syntax file. Language: Promela. Made by tools/editors of spinplay from the table of its lexer.
if exists("b:current_syntax")
  finish
endif
syn keyword promelaType bit bool byte chan int mtype pid short typedef unsigned
syn keyword promelaStructure active hidden init inline local of proctype show xr xs
syn keyword promelaConditional else fi if unless
syn keyword promelaRepeat break do for goto od select
syn keyword promelaStatement assert atomic d_step printf printm run skip
syn keyword promelaFunction empty eval full len nempty nfull timeout
syn keyword promelaBoolean false true
syn keyword promelaForeign D_proctype STDIN _last c_code c_decl c_expr c_state c_track enabled get_priority ltl never notrace np_ pc_value priority provided return set_priority trace
syn keyword promelaSpecial _ _pid _nr_pr
syn match promelaNumber "\<\d\+\>"
syn region promelaString start=+"+ skip=+\\.+ end=+"+
syn match promelaOperator "::\|->\|!!\|??\|!\|?"
syn match promelaLabel "^\s*\h\w*\ze\s*:\%([^:]\|$\)"
syn match promelaPreProc "^\s*#.*$"
syn region promelaComment start="/\*" end="\*/" contains=@Spell
syn match promelaComment "//.*$" contains=@Spell
hi def link promelaType Type
hi def link promelaStructure Structure
hi def link promelaConditional Conditional
hi def link promelaRepeat Repeat
hi def link promelaStatement Statement
hi def link promelaFunction Function
hi def link promelaBoolean Boolean
hi def link promelaForeign Error
hi def link promelaSpecial Identifier
hi def link promelaNumber Number
hi def link promelaString String
hi def link promelaOperator Operator
hi def link promelaLabel Label
hi def link promelaPreProc PreProc
hi def link promelaComment Comment
let b:current_syntax = "promela"
