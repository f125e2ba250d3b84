" Systems of wanda: comments, names with primes, and :make.
if exists("b:did_ftplugin")
  finish
endif
let b:did_ftplugin = 1
setlocal comments=:# commentstring=#\ %s iskeyword+='
compiler wanda
let b:undo_ftplugin = "setlocal comments< commentstring< iskeyword< makeprg< errorformat<"
