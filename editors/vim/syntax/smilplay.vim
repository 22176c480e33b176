" Vim syntax file
" Language: sessions of smilplay, *.play
" Copy editors/vim/* to ~/.vim (ftdetect and syntax).

if exists("b:current_syntax")
  finish
endif

syntax case match

" Outlines: a kind behind two spaces for each level, then attributes.
syntax match smilplayContainer "^ *\(par\|seq\|excl\|priorityClass\|switch\)\ze\( \|$\)"
syntax match smilplayMedia "^ *\(img\|text\|brush\|audio\|video\|animation\|textstream\|ref\|set\)\ze\( \|$\)"
syntax match smilplayUnsupported "^ *\(prefetch\|smilText\|body\)\ze\( \|$\)"
syntax match smilplayAttribute "\<[A-Za-z]\+\ze=\"" nextgroup=smilplayEquals
syntax match smilplayEquals "=" contained
syntax region smilplayValue start=+"+ end=+"+ oneline contains=smilplayClock,smilplayWord,smilplayInstant
syntax match smilplayClock "\<[0-9]\+\(\.[0-9]\+\)\?\(h\|min\|s\|ms\)\?\>" contained
syntax match smilplayClock "\<\([0-9]\+:\)\?[0-5][0-9]:[0-5][0-9]\(\.[0-9]\+\)\?\>" contained
let s:words = '\<\(indefinite\|media\|always\|whenNotActive\|never\|default\|inherit\|remove'
      \ . '\|freeze\|hold\|auto\|last\|first\|all\|stop\|pause\|defer\|on\|off\)\>'
execute 'syntax match smilplayWord "' . s:words . '" contained'

" Orders: the presentation's name comes first, but for load and close.
let s:orders = '\(advance\|seek\|event\|media\|key\|set\|unset\|insert\|remove'
      \ . '\|show\|history\|text\|save\|values\|stack\|diary\)\>'
execute 'syntax match smilplayName "^ *[A-Za-z][A-Za-z0-9_-]*\ze \+' . s:orders . '"'
      \ . ' nextgroup=smilplayOrder skipwhite'
execute 'syntax match smilplayOrder "' . s:orders . '" contained nextgroup=smilplayClock skipwhite'
syntax match smilplayLoad "^ *\(load\|close\)\ze " nextgroup=smilplayLoaded skipwhite
syntax match smilplayLoaded "[A-Za-z][A-Za-z0-9_-]*" contained nextgroup=smilplayAt skipwhite
syntax match smilplayAt "at\>" contained nextgroup=smilplayInstant skipwhite
syntax match smilplayInstant "[0-9]\{4}-[0-9][0-9]-[0-9][0-9][0-9T:.Z+-]*" contained
syntax match smilplayPrefer "^ *prefer\ze \+\(bitrate\|captions\|audiodesc\|language\|screen\|depth\)\>"
      \ nextgroup=smilplayPreferred skipwhite
syntax match smilplayPreferred "[a-z]\+" contained
syntax match smilplayEnd "^ *%% *$"

" Entries of a diary, for audit, and its last line.
syntax match smilplayMoment "^[0-9]\+\ze [a-z]" nextgroup=smilplayEntry skipwhite
syntax match smilplayMoment "\(^[0-9]\+ [a-z]\+ #[0-9]\+ \|^now \)\@<=-\?[0-9]\+$"
syntax match smilplayEntry "\(event\|media\|key\|began\|deferred\|passed\|repeated\|ended\|cut\|paused\|resumed\)\>"
      \ contained
syntax match smilplayEntry "^now\ze [0-9]\+$"

syntax match smilplaySerial "#[1-9][0-9]*"
syntax match smilplayComment "^#.*$"
syntax match smilplayHeader "^outline 2 next [1-9][0-9]*$"

highlight default link smilplayOrder Statement
highlight default link smilplayLoad Statement
highlight default link smilplayName Identifier
highlight default link smilplayLoaded Identifier
highlight default link smilplayAt Statement
highlight default link smilplayInstant Number
highlight default link smilplayPrefer Statement
highlight default link smilplayPreferred Identifier
highlight default link smilplayMoment Number
highlight default link smilplayEntry Statement
highlight default link smilplayEnd Delimiter
highlight default link smilplaySerial Identifier
highlight default link smilplayComment Comment
highlight default link smilplayHeader PreProc
highlight default link smilplayContainer Structure
highlight default link smilplayMedia Type
highlight default link smilplayUnsupported Error
highlight default link smilplayAttribute Keyword
highlight default link smilplayEquals Operator
highlight default link smilplayValue String
highlight default link smilplayClock Number
highlight default link smilplayWord Constant

let b:current_syntax = "smilplay"
