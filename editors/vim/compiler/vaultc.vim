" `:make` shows what `vault check` says of the file: the quickfix list has each error, and its other places as notes.
if exists("current_compiler")
    finish
endif
let current_compiler = "vaultc"

" beside this folder in a clone of the repository and in an installed tool; else the one of the PATH
let s:vault = expand("<sfile>:p:h:h:h:h") . "/bin/vault"
let &l:makeprg = (executable(s:vault) ? escape(fnameescape(s:vault), '%#') : "vault") . " check --format gcc %:S"
let &l:errorformat = "%f:%l:%c: %trror: %m,%f:%l:%c: %tarning: %m,%f:%l:%c: %tote: %m"
