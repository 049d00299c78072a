" Made by bin/syntax, not written by hand.
if exists('b:current_syntax') | finish | endif
syn include @antt syntax/antt.vim
unlet b:current_syntax
syn keyword rattleKeyword abstract as async await become box break const continue crate do dyn else enum extern final fn for gen if impl in let loop macro match mod move mut override priv pub ref return static struct super trait try type typeof unsafe unsized use virtual where while yield
syn keyword rattleType bool char f32 f64 i8 i16 i32 i64 i128 isize str u8 u16 u32 u64 u128 usize
syn keyword rattleValue true false self Self
syn match rattleTypeName /\<\u\w*\>/
syn match rattleFunction /\(\<fn\s\+\)\@<=\w\+/
syn match rattleMacro /\<\l\w*!/
syn match rattleNumber /\<\d[0-9_]*\(\.\d[0-9_]*\)\?\w*\>/
syn match rattleLifetime /'\l\w*\>'\@!/
syn match rattleChar /b\?'\([^'\\]\|\\.[^']*\)'/
syn region rattleString start=/b\?"/ skip=/\\./ end=/"/
syn region rattleAttribute start=/#!\?\[/ end=/\]/
syn match rattleComment /\/\/.*/ contains=rattleTodo
syn match rattleDoc /\/\/[\/!].*/
syn keyword rattleTodo contained TODO FIXME
syn region rattleBraces start=/{/ end=/}/ contained contains=@antt,rattleBraces
syn region rattleClause matchgroup=rattleContract start=/\<\(requires\|ensures\)\>\s*\*\?\s*\w*\s*{/ end=/}/ contains=@antt,rattleBraces
syn region rattleGhost matchgroup=rattleContract start=/\<ghost\>\s*\(use\>\)\@!/ end=/;\|{\@=/ contains=@antt,rattleBraces nextgroup=rattleBraces
syn region rattleGhostUse matchgroup=rattleContract start=/\<ghost\s\+use\>/ end=/;/ contains=@antt,rattleBraces
hi def link rattleKeyword Keyword
hi def link rattleContract PreProc
hi def link rattleType Type
hi def link rattleTypeName Type
hi def link rattleValue Constant
hi def link rattleFunction Function
hi def link rattleMacro Macro
hi def link rattleNumber Number
hi def link rattleLifetime Special
hi def link rattleChar Character
hi def link rattleString String
hi def link rattleAttribute PreProc
hi def link rattleComment Comment
hi def link rattleDoc SpecialComment
hi def link rattleTodo Todo
let b:current_syntax = 'rattle'
