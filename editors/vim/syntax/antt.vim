" Made by bin/syntax, not written by hand.
if exists('b:current_syntax') | finish | endif
syn match anttName /[^ \t(){}.;,@"«»]\+/ contains=anttWord,anttTactic,anttType,anttNumber,anttSymbol,anttHole,anttDeclared
syn match anttWord /\(^\|[ \t(){}.;,]\)\@1<=\(abbrev\|as\|axiom\|coe\|com\|data\|deriving\|do\|elim\|fcoe\|hcom\|in\|infix\|infixl\|infixr\|let\|mod\|module\|mutual\|open\|package\|pub\|record\|ruleset\|tcoe\|unfold\|unfoldable\|unfolding\|use\|where\)\ze\($\|[ \t(){}.;,]\)/ contained
syn match anttTactic /\(^\|[ \t(){}.;,]\)\@1<=\(assumption\|cc\|first_of\|grind\|grw\|hlevel\|omega\|rw\|rw⁻¹\|search\|simp\)\ze\($\|[ \t(){}.;,]\)/ contained
syn match anttType /\(^\|[ \t(){}.;,]\)\@1<=\u\k*\ze\($\|[ \t(){}.;,]\)/ contained
syn match anttNumber /\(^\|[ \t(){}.;,]\)\@1<=\d[0-9a-fx_]*\ze\($\|[ \t(){}.;,]\)/ contained
syn match anttSymbol /[→λ×≡≤≢¬∀∧∨↔=|:∷]/ contained
syn match anttHole /\(^\|[ \t(){}.;,]\)\@1<=?\w*/ contained
syn match anttDeclared /[^ \t(){}.;,@"«»]\+\ze :\($\|\s\)/ contained
syn region anttString start=/"/ skip=/\\./ end=/"/ oneline
syn match anttComment /\(^\|[ \n(){}.;,@"»]\)\@1<=--.*/
syn region anttComment start=/{-/ end=/-}/
hi def link anttWord Keyword
hi def link anttTactic Function
hi def link anttType Type
hi def link anttNumber Number
hi def link anttSymbol Operator
hi def link anttHole Todo
hi def link anttDeclared Identifier
hi def link anttString String
hi def link anttComment Comment
let b:current_syntax = 'antt'
