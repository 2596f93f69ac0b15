" Vim syntax file
" Language: um, programs with units of measure

if exists("b:current_syntax")
  finish
endif

syntax case match

" A name is keyword characters that don't begin with a digit.
syntax match umName "\<\d\@!\k\+"
syntax match umUnitVariable "'\d\@!\k\+"
syntax match umHole "\<_\>"
syntax match umOperator "||\|&&\|->\|::\|<=\|<>\|[-+*/^<>=|.]"

syntax keyword umStructure type nextgroup=umDeclaredRecord skipwhite skipnl
syntax keyword umStatement let nextgroup=umRecursive,umDeclared skipwhite skipnl
syntax keyword umStatement in
syntax keyword umRecursive rec nextgroup=umDeclared skipwhite skipnl
syntax keyword umConditional if then else match with
syntax keyword umWordOperator not pown
syntax keyword umBoolean true false
syntax keyword umType bool list
syntax keyword umType num nextgroup=umUnits skipwhite skipnl

syntax match umDeclared contained "\<\d\@!\k\+"
syntax match umDeclaredRecord contained "\<\d\@!\k\+"

" Units: after a number directly, after `num` and after a record's name in a type.
syntax cluster umUnit contains=umComment,umMeasure,umUnitVariable,umUnitHole,umUnitOperator,umPower
syntax match umMeasure contained "\<\d\@!\k\+"
syntax match umUnitHole contained "\<_\>"
syntax match umUnitOperator contained "[*/(),]"
syntax match umPower contained "\^\_s*-\=\_s*\d\+"
syntax match umPower contained "\<1\>"
syntax region umUnits contained matchgroup=umDelimiter start="<[=>]\@!" end=">" contains=@umUnit
syntax match umNumber "\<\d\+\%([.r]\d\+\)\=\>" nextgroup=umUnits

" Types: from a colon to the sign that ends them.
syntax region umAnnotation matchgroup=umOperator start=":\@1<!::\@!" matchgroup=NONE end="[)=;}]"me=s-1
  \ contains=@umTypes
syntax region umTypeBrackets contained start="(" end=")" contains=@umTypes
syntax cluster umTypes contains=umComment,umType,umRecordType,umTypeBrackets,umUnits
syntax match umRecordType contained "\<\d\@!\k\+" nextgroup=umUnits skipwhite skipnl

" Measures: an abbreviation's unit ends where the next declaration begins.
syntax match umAttribute "\[<\_s*Measure\_s*>\_s*\]"
syntax match umMeasureHead "\[<\_s*Measure\_s*>\_s*\]\_s*type\>" contains=umAttribute,umMeasureType
  \ nextgroup=umDeclaredMeasure skipwhite skipnl
syntax match umMeasureType contained "\<type\>"
syntax match umDeclaredMeasure contained "\<\d\@!\k\+" nextgroup=umAbbreviation skipwhite skipnl
syntax region umAbbreviation contained matchgroup=umOperator start="=" matchgroup=NONE
  \ end="\[<\|\<let\>\|\<type\>"me=s-1 contains=@umUnit

" It stands last, since `//` begins a comment wherever it stands.
syntax match umComment "//.*$" contains=@Spell

syntax sync fromstart

highlight default link umComment Comment
highlight default link umStructure Structure
highlight default link umMeasureType Structure
highlight default link umStatement Statement
highlight default link umRecursive Statement
highlight default link umConditional Conditional
highlight default link umWordOperator Operator
highlight default link umOperator Operator
highlight default link umUnitOperator Operator
highlight default link umBoolean Boolean
highlight default link umNumber Number
highlight default link umPower Number
highlight default link umType Type
highlight default link umRecordType Type
highlight default link umDeclaredRecord Type
highlight default link umDeclaredMeasure Type
highlight default link umDeclared Function
highlight default link umAttribute PreProc
highlight default link umMeasure Constant
highlight default link umUnitVariable Identifier
highlight default link umHole Special
highlight default link umUnitHole Special
highlight default link umDelimiter Delimiter

let b:current_syntax = "um"
