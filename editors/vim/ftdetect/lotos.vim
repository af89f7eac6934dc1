" Specifications in LOTOS, and scripts and traces of their sessions.
autocmd BufNewFile,BufRead *.lotos,*.lot setfiletype lotos
autocmd BufNewFile,BufRead *.script if search('^\s*\d\+:\s*\a', 'nw') || getline(1) !~# '^#!' && !search('^\s*[^#[:space:]]', 'nw') | setfiletype lotosscript | endif
autocmd BufNewFile,BufRead *.trace if getline(1) =~# '^lotos-trace [12]$' | setfiletype lotostrace | endif
