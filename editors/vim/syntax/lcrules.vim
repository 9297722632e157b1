" Rule texts (docs/RULES.md).
if exists('b:current_syntax')
  finish
endif

syntax case match
syntax keyword lcItem packet field rule
syntax keyword lcClause mid length at mask stale fails sequence event report when
syntax keyword lcOperator or xor and not
syntax keyword lcType u8 i8 u16be u16le i16be i16le u32be u32le i32be i32le
syntax keyword lcState active passive disabled
syntax keyword lcLevel debug info error critical
syntax match lcNumber /-\?\<\(0x\x\+\|\d\+\)\>/
syntax match lcComparison /[<>]=\?\|[!=]=/
syntax region lcText start=/"/ end=/"/ oneline
syntax keyword lcQuiet contained quiet
syntax match lcComment /#.*$/ contains=lcQuiet,@Spell

highlight default link lcItem Statement
highlight default link lcClause Keyword
highlight default link lcOperator Operator
highlight default link lcComparison Operator
highlight default link lcType Type
highlight default link lcState Constant
highlight default link lcLevel Constant
highlight default link lcNumber Number
highlight default link lcText String
highlight default link lcComment Comment
highlight default link lcQuiet SpecialComment

let b:current_syntax = 'lcrules'
