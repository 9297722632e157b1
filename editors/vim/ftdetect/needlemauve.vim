" Rule texts, schedules and scenarios of Needlemauve by the ends of their names. Other programs have files that end in `.rules`, too,
" so that such a file counts only if its first item is one of ours.

function! s:IsRuleText() abort
  for line in getline(1, 200)
    if line !~# '^\s*\(#.*\)\?$'
      return line =~# '^\s*\(packet\|field\|rule\)\>'
    endif
  endfor
  return expand('%:p') !~# '/udev/'
endfunction

autocmd BufNewFile,BufRead *.rules if s:IsRuleText() | set filetype=lcrules | endif
autocmd BufNewFile,BufRead *.schedule set filetype=lcschedule
autocmd BufNewFile,BufRead *.scenario set filetype=lcscenario
