if exists("b:did_ftplugin")
    finish
endif
let b:did_ftplugin = 1

" as `vaultc fmt` lays a text out
setlocal expandtab shiftwidth=4 softtabstop=4
setlocal commentstring=//\ %s comments=s1:/*,mb:*,ex:*/,://
compiler vaultc
let b:undo_ftplugin = "setlocal expandtab< shiftwidth< softtabstop< commentstring< comments< makeprg< errorformat<"
