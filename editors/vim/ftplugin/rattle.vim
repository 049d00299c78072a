" Made by bin/syntax, not written by hand.
if exists('b:did_ftplugin') | finish | endif
let b:did_ftplugin = 1
setlocal expandtab shiftwidth=4 softtabstop=4
setlocal comments=:///,://!,:// commentstring=//\ %s
inoremap <buffer> \x ×
inoremap <buffer> \lambda λ
inoremap <buffer> \N ℕ
inoremap <buffer> \l ←
inoremap <buffer> \to →
inoremap <buffer> \mapsto ↦
inoremap <buffer> \. ∙
inoremap <buffer> \== ≡
inoremap <buffer> \==n ≢
inoremap <buffer> \le ≤
inoremap <buffer> \hole ◌
