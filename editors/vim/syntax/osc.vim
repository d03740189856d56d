" Vim syntax file of a profile of OpenSCENARIO DSL.
" Written by tools/write-editors from the words of the lexer.
if exists("b:current_syntax")
  finish
endif

syntax case match

syntax keyword oscDeclaration type unit enum struct actor action scenario extend
syntax keyword oscHeading import is of inherits list with
syntax keyword oscRule keep hard default remove_default
syntax keyword oscPhase do serial parallel one_of wait elapsed
syntax keyword oscOperator and or not in
syntax keyword oscBuiltin it range
syntax keyword oscConstant true false
syntax keyword oscType int uint float bool string
syntax keyword oscLeftOut call cover def emit event every export external fall global modifier namespace on record rise sample until var
syntax keyword oscField max_speed max_acceleration

syntax match oscLibrary /\<\%(length\|time\|speed\|acceleration\|vehicle\)\>/
syntax match oscModifier /\<\%(lane\|position\|speed\)\>\ze\s*(/
syntax match oscAction /\.\s*\zs\%(drive\)\>\ze\s*(/
syntax match oscArgument /\<\%(ahead_of\|behind\|faster_than\|left_of\|right_of\|same_as\|slower_than\|at\|duration\|overlap\)\>\ze:/
syntax match oscMoment /\%(\<\%(at\|overlap\):\s*\)\@<=\%(all\|any\|end\|equal\|start\)\>/
syntax match oscOperatorMark /!\|\*\|+\|-\|\/\|<\|=\|>\|!=\|\.\.\|<=\|==\|=>\|>=/
syntax match oscNumber /\<[0-9]\+\%(\.[0-9]\+\)\?\>/
syntax match oscPhysical /\<[0-9]\+\%(\.[0-9]\+\)\?\h\w*\>/ contains=oscUnit
syntax match oscUnit /[0-9]\@1<=\%(mpsps\|kph\|min\|mps\|km\|ms\|m\|s\)\>/ contained
syntax match oscNumber /\<0x\x\{1,14}\>/
syntax match oscEscape /\\["'\\]/ contained
syntax region oscString start=/"/ skip=/\\./ end=/"/ oneline contains=oscEscape
syntax region oscString start=/'/ skip=/\\./ end=/'/ oneline contains=oscEscape
syntax match oscComment /#.*$/ contains=oscTodo
syntax keyword oscTodo TODO FIXME contained

highlight default link oscDeclaration Structure
highlight default link oscHeading Keyword
highlight default link oscRule Statement
highlight default link oscPhase Conditional
highlight default link oscOperator Operator
highlight default link oscBuiltin Identifier
highlight default link oscConstant Boolean
highlight default link oscLibrary Type
highlight default link oscField Identifier
highlight default link oscModifier Function
highlight default link oscAction Function
highlight default link oscArgument Label
highlight default link oscMoment Constant
highlight default link oscUnit Special
highlight default link oscType Type
highlight default link oscLeftOut Error
highlight default link oscOperatorMark Operator
highlight default link oscNumber Number
highlight default link oscPhysical Float
highlight default link oscEscape SpecialChar
highlight default link oscString String
highlight default link oscComment Comment
highlight default link oscTodo Todo

let b:current_syntax = "osc"
