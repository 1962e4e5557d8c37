" Checks the file with netconf-lint: `:make`, then `:cnext` goes through the refusals, the warnings and their notes.
if exists('current_compiler')
  finish
endif
let current_compiler = 'netconf'

if exists(':CompilerSet') != 2
  command -nargs=* CompilerSet setlocal <args>
endif

CompilerSet makeprg=netconf-lint\ %:S
CompilerSet errorformat=%f:%l:%c:\ %trror:\ %m,%f:%l:%c:\ %tarning:\ %m,%f:%l:%c:\ %tote:\ %m
CompilerSet errorformat+=%f:%l:\ %trror:\ %m,%f:%l:\ %tarning:\ %m,%f:%l:\ %tote:\ %m,netconf-lint:\ %m,%-G\ \ %.%#
