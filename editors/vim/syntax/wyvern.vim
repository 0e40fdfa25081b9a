" Wyvern: the words of docs/LANGUAGE.md, "Tokens".
if exists("b:current_syntax")
  finish
endif
syntax keyword wyvernDeclare type effect def module resource plain program grant use instance import at init run val var
syntax keyword wyvernControl if then else new this
syntax keyword wyvernBool true false
syntax keyword wyvernType Int Bool String Unit Console Folder Clock Random FullFolder
syntax keyword wyvernBuiltIn text_size text_part text_code text_byte text_show
syntax keyword wyvernReserved main
syntax match wyvernNumber /\<\d\+\>/
syntax match wyvernEscape contained /\\\([nt\\"]\|x\x\x\)/
syntax match wyvernWrong contained /\\\([nt\\"]\|x\x\x\)\@!./
syntax region wyvernText start=/"/ skip=/\\./ end=/"/ oneline contains=wyvernEscape,wyvernWrong
syntax match wyvernSet /{[^{}"]*}/ contains=wyvernAtom
syntax match wyvernAtom contained /[^{}, ]\+/
syntax match wyvernComment "//.*$"
syntax match wyvernTab /^ *\t\+/
highlight default link wyvernDeclare Keyword
highlight default link wyvernControl Conditional
highlight default link wyvernBool Boolean
highlight default link wyvernType Type
highlight default link wyvernBuiltIn Function
highlight default link wyvernReserved Error
highlight default link wyvernNumber Number
highlight default link wyvernText String
highlight default link wyvernEscape SpecialChar
highlight default link wyvernWrong Error
highlight default link wyvernAtom Special
highlight default link wyvernComment Comment
highlight default link wyvernTab Error
let b:current_syntax = "wyvern"
