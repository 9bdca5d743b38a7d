" Files of other languages end with .v too: a file is Vault's if a line near its beginning is one of Vault's declarations, if its first line is the comment
" `// vault`, or if its folder has a vault.json.
function! s:detect() abort
    let l:declaration = '^\s*\%(stateset\|abstract\|struct\|variant\|extern\|void\|int\|bool\|tracked\)\>.*[({;]'
    if match(getline(1, 100), l:declaration) >= 0 || getline(1) =~? '^\s*//\s*vault\>' || filereadable(expand('%:p:h') . '/vault.json')
        set filetype=vault
    endif
endfunction

autocmd BufRead,BufNewFile *.v,*.vi call s:detect()
