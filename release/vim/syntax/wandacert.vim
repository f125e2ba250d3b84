" Certificates of wanda: of termination (YES) and of a loop (NO).
if exists("b:current_syntax")
  finish
endif
syntax case match

syntax match wandacertNumber "\<\d\+\>"
syntax match wandacertVariable "[$%]\d\+\|\<y\d\+\>"
syntax match wandacertType "\%(%\d\+:\|\$\d\+:\)\@<=(\?\h[0-9A-Za-z_']*"
syntax match wandacertMove "\<\d\+>\d\+:\d\+\>"
syntax match wandacertInference "\%(^\%(rule\|pair\) \)\@<=[=vsxzpablm].*"
syntax match wandacertPlace "\%(^\%(step \%(\d\+\|beta\) \|at \)\)\@<=/[01]*"
syntax match wandacertAnswer "\%1l^\%(YES\|NO\)\>"
syntax match wandacertNode "^\%(done\|alone\|blocks\|subterm\|poly\|order\)\>"
syntax match wandacertLine "^\%(ranks\|pairs\|block\|arg\|drop\|usable\|fun\|mark\|rule\|pair\|end\|term\|step\|at\|put\)\>"
syntax match wandacertSymbol "\%(^\%(arg\|fun\|mark\) \)\@<=\h[0-9A-Za-z_']*"
syntax match wandacertWord "\%(^\%(fun\|mark\) \h[0-9A-Za-z_']* \)\@<=\%(keep\|pick\)\>"
syntax match wandacertWord "\%(^step \)\@<=beta\>"

highlight default link wandacertAnswer Statement
highlight default link wandacertNode Structure
highlight default link wandacertLine Keyword
highlight default link wandacertWord Keyword
highlight default link wandacertSymbol Function
highlight default link wandacertType Type
highlight default link wandacertMove Special
highlight default link wandacertInference Special
highlight default link wandacertVariable Identifier
highlight default link wandacertPlace Special
highlight default link wandacertNumber Number

let b:current_syntax = "wandacert"
