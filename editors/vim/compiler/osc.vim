" Vim compiler of a profile of OpenSCENARIO DSL: `:make top` in a source with the scenario `top` looks for its faults, and hardly searches.
" Options may follow, as in `:make top --ticks 300`.
if exists("current_compiler")
  finish
endif
let current_compiler = "osc"

if exists(":CompilerSet") != 2
  command -nargs=* CompilerSet setlocal <args>
endif

CompilerSet makeprg=osc\ generate\ %:S\ $*\ --cuts\ 1
" A message has its title in one line and its place in the next. All other lines are left out.
CompilerSet errorformat=%Eerror[%n]:\ %m,%Z\ %#-->\ %f:%l:%c,%-G%.%#
