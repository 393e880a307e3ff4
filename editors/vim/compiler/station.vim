" `:compiler station`, then `:make`: check the script, its refusal in the quickfix list.
if exists('current_compiler')
  finish
endif
let current_compiler = 'station'
CompilerSet makeprg=station\ check\ --short\ %:S
CompilerSet errorformat=%f:%l:%c:\ number\ %n:\ %m
