" Made by bin/syntax, not written by hand.
autocmd BufRead,BufNewFile *.rt set filetype=rattle
autocmd BufRead,BufNewFile *.antt set filetype=antt
