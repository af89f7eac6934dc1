" Settings for specifications in LOTOS.
if exists('b:did_ftplugin')
  finish
endif
let b:did_ftplugin = 1

setlocal comments=s:(*,m:\ ,e:*) commentstring=(*\ %s\ *)
setlocal foldmethod=syntax foldlevel=99
setlocal matchpairs=(:),[:]
" A refusal of `check` is `refused NO NAME LINE:COLUMN NAMES`: the command :make puts the file before it, and goes to the place.
setlocal makeprg=echo\ %:S:\ \"$(lotos\ check\ %:S)\"
setlocal errorformat=%f:\ refused\ %n\ %m\ %l:%c\ %.%#,%f:\ refused\ %n\ %m\ %l:%c,%-G%.%#

" The command % goes between these pairs, where matchit is loaded.
let b:match_ignorecase = 1
let b:match_words = '\<specification\>:\<behaviou\?r\>:\<endspec\>,\<process\>:\<endproc\>,\<type\>:\<endtype\>,\<library\>:\<endlib\>'

let b:undo_ftplugin = 'setlocal comments< commentstring< foldmethod< foldlevel< matchpairs< makeprg< errorformat< | unlet! b:match_ignorecase b:match_words'
