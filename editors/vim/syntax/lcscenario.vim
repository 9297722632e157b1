" Scenarios: the lines of scripts in docs/TOOLS.md.
if exists('b:current_syntax')
  finish
endif

syntax case match
syntax keyword lcMoment at after from by until each
syntax keyword lcStatement fields telemetry command packet record file half wdt adt
syntax keyword lcStatement tick sample housekeeping start stop restart reload load validate activate abort
syntax keyword lcStatement mode state filter ramp repeat
syntax keyword lcExpectation expect no sequence event result
syntax keyword lcType u8 i8 u16be u16le i16be i16le u32be u32le i32be i32le
syntax keyword lcState active passive disabled off all age keep none pass fail stale error
syntax match lcNumber /-\?\<\(0x\x\+\|\d\+\(\.\d\+\)\?\)\>/
syntax match lcBraces /[{}]/
syntax match lcComment /\(^\|\s\)\zs#.*$/ contains=@Spell

highlight default link lcMoment Keyword
highlight default link lcStatement Statement
highlight default link lcExpectation PreProc
highlight default link lcType Type
highlight default link lcState Constant
highlight default link lcNumber Number
highlight default link lcBraces Delimiter
highlight default link lcComment Comment

let b:current_syntax = 'lcscenario'
