" Full LOTOS, with data types in ACT ONE. Letters are the same small or large.
if exists('b:current_syntax')
  finish
endif

syntax case ignore
" The word rule of the language: a low line joins letters and digits.
setlocal iskeyword=@,48-57,_

syntax keyword lotosBehaviour stop exit noexit i
syntax keyword lotosOperator hide let choice par in any accept
syntax keyword lotosPart behaviour behavior where of for forall is using actualizedby renamedby
syntax keyword lotosData sorts opns eqns ofsort formalsorts formalopns formaleqns sortnames opnnames
syntax keyword lotosBracket specification endspec library endlib
syntax keyword lotosTodo contained TODO FIXME XXX

" A process where its name follows what begins a behaviour, and a gate before its fields, before `;`, or in a list. Types have neither.
syntax match lotosCall '\%(\%(:=\|;\|->\|\[\]\||||\|||\|\]|\|>>\|\[>\|\<in\>\|\<behaviou\?r\>\)\_s*\)\@<=\a[0-9A-Za-z_]*'
syntax match lotosCall '\%((\_s*\)\@<=\a[0-9A-Za-z_]*\ze\_s*\[[]>]\@!'
syntax match lotosGate '\<\a[0-9A-Za-z_]*\ze\_s*[;!?]'
syntax match lotosField '[!:]\_s*\a[0-9A-Za-z_]*' contains=lotosSymbol,lotosBehaviour
syntax match lotosGateName '\<\a[0-9A-Za-z_]*\>' contained
syntax match lotosHidden '\%(\<hide\_s\+\)\@<=\a[0-9A-Za-z_]*\%(\_s*,\_s*\a[0-9A-Za-z_]*\)*' contains=lotosGateName
syntax match lotosName '\%(\<\%(process\|specification\)\_s\+\)\@<=\a[0-9A-Za-z_]*'

syntax match lotosNumber '\<\d[0-9A-Za-z_]*\>'
syntax match lotosSymbol '|||\|||\||\[\|\]|\|\[\]\|\[>\|>>\|:=\|->\|=>\|[;!?]'
syntax match lotosGates '|\?\[\_s*\a[0-9A-Za-z_]*\%(\_s*,\_s*\a[0-9A-Za-z_]*\)*\_s*\]\%(\_s*\%(->\|;\)\)\@!' contains=lotosGateName,lotosSymbol
syntax region lotosComment start='(\*' end='\*)' contains=lotosTodo,@Spell
syntax region lotosMark start='(\*!' end='\*)'

syntax region lotosProcess matchgroup=lotosBracket start='\<process\>' end='\<endproc\>' transparent fold
syntax region lotosType matchgroup=lotosBracket start='\<type\>' end='\<endtype\>' transparent fold contains=ALLBUT,lotosCall,lotosGate,lotosGates,lotosGateName,lotosHidden,lotosName,lotosTodo
syntax region lotosLongComment start='^\s*(\*\(.*\*)\)\@!' end='\*)' contains=lotosTodo,@Spell fold keepend

syntax sync fromstart

highlight default link lotosBehaviour Constant
highlight default link lotosOperator Statement
highlight default link lotosPart Keyword
highlight default link lotosData Type
highlight default link lotosBracket Structure
highlight default link lotosCall Function
highlight default link lotosName Function
highlight default link lotosGate Identifier
highlight default link lotosGateName Identifier
highlight default link lotosNumber Number
highlight default link lotosSymbol Operator
highlight default link lotosComment Comment
highlight default link lotosLongComment Comment
highlight default link lotosMark PreProc
highlight default link lotosTodo Todo

let b:current_syntax = 'lotos'
