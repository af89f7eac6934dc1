" Scripts of sessions: a line for each offer of a client.
if exists('b:current_syntax')
  finish
endif

syntax case ignore
syntax match lotosscriptComment '^\s*#.*$'
syntax match lotosscriptClient '^\s*\d\+\ze\s*:' nextgroup=lotosscriptColon skipwhite
syntax match lotosscriptColon ':' contained nextgroup=lotosscriptGate skipwhite
syntax match lotosscriptGate '\a[0-9A-Za-z_]*' contained
syntax match lotosscriptField '[!?]'

highlight default link lotosscriptComment Comment
highlight default link lotosscriptClient Number
highlight default link lotosscriptColon Delimiter
highlight default link lotosscriptGate Identifier
highlight default link lotosscriptField Operator

let b:current_syntax = 'lotosscript'
