" Systems of wanda: sorts, symbols with their types, and rules.
if exists("b:current_syntax")
  finish
endif
syntax case match
syntax sync minlines=50

syntax match wandaType "\<\h[0-9A-Za-z_']*" contained
syntax match wandaSymbol "\<\h[0-9A-Za-z_']*\ze\_s*:" contained
syntax match wandaDeclared "\<\h[0-9A-Za-z_']*\ze\_s*:" contained
syntax match wandaBinder "\%(\<\h[0-9A-Za-z_']*\|\$\d\+\)\ze\_s*:" contained
syntax match wandaArrow "->" contained
syntax match wandaMeta "\<\u[0-9A-Za-z_']*"
syntax match wandaMeta "\<\h[0-9A-Za-z_']*\ze\s*\["
syntax match wandaVariable "[$%]\d\+"
syntax match wandaStep "=>"
syntax match wandaStop ";"
syntax keyword wandaKeyword rule
syntax region wandaSort matchgroup=wandaKeyword start="\<sort\>" matchgroup=wandaStop end=";"
      \ contains=wandaType,wandaComment
syntax region wandaFun matchgroup=wandaKeyword start="\<fun\>" matchgroup=wandaStop end=";"
      \ contains=wandaType,wandaSymbol,wandaArrow,wandaComment
syntax region wandaMetas matchgroup=wandaBrace start="{" end="}"
      \ contains=wandaType,wandaDeclared,wandaArrow,wandaComment
syntax region wandaAbstraction matchgroup=wandaLambda start="\\" end="\."
      \ contains=wandaType,wandaBinder,wandaArrow,wandaComment
syntax match wandaComment "#.*" contains=@Spell

highlight default link wandaKeyword Keyword
highlight default link wandaType Type
highlight default link wandaSymbol Function
highlight default link wandaMeta Identifier
highlight default link wandaDeclared Identifier
highlight default link wandaBinder Special
highlight default link wandaVariable Special
highlight default link wandaLambda Special
highlight default link wandaArrow Operator
highlight default link wandaStep Statement
highlight default link wandaStop Delimiter
highlight default link wandaBrace Delimiter
highlight default link wandaComment Comment

let b:current_syntax = "wanda"
