if exists("b:current_syntax")
    finish
endif

syntax keyword vaultDeclaration stateset abstract struct variant extern release
syntax keyword vaultType int bool void
syntax keyword vaultKey tracked new adopt into swap open focus as become
syntax keyword vaultStatement break case continue else if return switch while
syntax keyword vaultCall input more print
syntax keyword vaultBoolean true false
syntax match vaultNumber "\<\d\+\>"
syntax match vaultCase "'[[:alpha:]_][[:alnum:]_]*"
syntax match vaultState "@\s*[[:alpha:]_][[:alnum:]_]*"
syntax match vaultState "@\s*{[^}]*}"
syntax match vaultComment "//.*$" contains=vaultTodo
syntax region vaultComment start="/\*" end="\*/" contains=vaultTodo
syntax keyword vaultTodo TODO FIXME contained

highlight default link vaultDeclaration Structure
highlight default link vaultType Type
highlight default link vaultKey Keyword
highlight default link vaultStatement Statement
highlight default link vaultCall Function
highlight default link vaultBoolean Boolean
highlight default link vaultNumber Number
highlight default link vaultCase Constant
highlight default link vaultState Identifier
highlight default link vaultComment Comment
highlight default link vaultTodo Todo

let b:current_syntax = "vault"
