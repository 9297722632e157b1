" Schedules (docs/FORMATS.md).
if exists('b:current_syntax')
  finish
endif

syntax case match
syntax keyword lcStatement slots sample housekeeping
syntax keyword lcAging age keep
syntax match lcNumber /\<\d\+\>/
" A comment has its line to itself.
syntax match lcComment /^\s*#.*$/ contains=@Spell

highlight default link lcStatement Statement
highlight default link lcAging Constant
highlight default link lcNumber Number
highlight default link lcComment Comment

let b:current_syntax = 'lcschedule'
