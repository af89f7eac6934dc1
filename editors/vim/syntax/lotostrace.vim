" Traces of sessions, formats 1 and 2.
if exists('b:current_syntax')
  finish
endif

syntax match lotostraceHead '\%1l^lotos-trace [12]$'
syntax match lotostraceKind '^\(pend\|ask\|act\|reply\|stall\|leave\|point\|end\)\>'
syntax match lotostraceOffer '\<\d\+\.\d\+\>'
syntax match lotostraceWord ' \(by\|rules\) '
syntax match lotostraceField ' [!?]\@='
syntax match lotostraceEnd '\<\(deadlock\|notnow\|beyond\|ended\|waiting\|spent\|large\|limit\)\>'
syntax match lotostraceTree '\( rules \| beyond \)\@<=.*'

highlight default link lotostraceHead PreProc
highlight default link lotostraceKind Statement
highlight default link lotostraceOffer Number
highlight default link lotostraceWord Keyword
highlight default link lotostraceEnd Special
highlight default link lotostraceTree Comment

let b:current_syntax = 'lotostrace'
