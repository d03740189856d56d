" Blocks are indented with spaces alone: a tab there is a fault.
if exists("b:did_ftplugin")
  finish
endif
let b:did_ftplugin = 1

setlocal expandtab shiftwidth=4 softtabstop=4 commentstring=#\ %s
compiler osc
let b:undo_ftplugin = "setlocal expandtab< shiftwidth< softtabstop< commentstring< makeprg< errorformat< | unlet! b:current_compiler"
