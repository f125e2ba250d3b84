" :make reads the system in this buffer, and :cwindow shows where it is refused. The places are told in a terminal alone,
" so `script` of util-linux makes one.
if exists("current_compiler")
  finish
endif
let current_compiler = "wanda"
CompilerSet makeprg=script\ -qec\ \"wanda\ show\ %:S\"\ /dev/null\ \\\|\ tr\ -d\ '\\r'
CompilerSet errorformat=%f:%l:%c:\ %m,%-G%.%#
