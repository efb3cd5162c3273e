" Vim: the words of scripts of strm. `make install-tools` puts in the commands.
" Without an installed ftdetect: autocmd BufRead,BufNewFile *.strm setfiletype strm
if exists("b:current_syntax") | finish | endif
syntax match strmComment "^#.*"
syntax match strmLabel "^#: \(queue\|module\|caller\) .*"
syntax match strmHeader "^\(pool\|class\|queue\|bufcalls\|worker\)\>"
syntax match strmCommand "\v^(@COMMANDS@)>"
syntax match strmRegister " \zs[a-z]\ze\( \|$\)"
syntax match strmNumber " \zs-\?\d\+\ze\( \|$\)"
syntax match strmType " \zsM_[A-Z]\+$"
syntax match strmWrong "\s\+$"
highlight default link strmComment Comment
highlight default link strmLabel SpecialComment
highlight default link strmHeader PreProc
highlight default link strmCommand Statement
highlight default link strmRegister Identifier
highlight default link strmNumber Number
highlight default link strmType Type
highlight default link strmWrong Error
let b:current_syntax = "strm"
