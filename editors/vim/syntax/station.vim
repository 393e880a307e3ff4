" Catalogue scripts
if exists('b:current_syntax')
  finish
endif
syntax case match

syntax match stationName /\t\zs[A-Za-z][A-Za-z0-9]*\ze\([.\t]\|$\)/
syntax match stationWord /^\(class\|field\|method\|requires\|ensures\|main\|var\|set\|let\|add\|sub\|new\|call\|open\|shut\|return\|assert\|release\|if\|else\|join\|loop\|again\|end\)\ze\(\t\|$\)/
syntax match stationAtom /\t\zs\(acc\|read\|chain\|eq\|ne\)\ze\t/
syntax match stationAtom /\(^requires\t\)\@<=\*$/
syntax match stationType /\t\zsint\ze\(\t\|$\)/
syntax match stationReserved /\t\zs\(null\ze\(\t\|$\)\|\(this\|result\)\ze\([.\t]\|$\)\)/
syntax match stationNumber /\t\zs\(0\|-\?[1-9][0-9]*\)\ze\(\t\|$\)/
syntax match stationField /\.\zs[A-Za-z][A-Za-z0-9]*\ze\(\t\|$\)/
syntax match stationDeclared /\(^class\t\|^\(field\|var\)\t[^\t]*\t\|^method\t[^\t]*\t\)\@<=[A-Za-z][A-Za-z0-9]*\ze\(\t\|$\)/
syntax match stationBad /[^\t!-~]/

highlight default link stationWord Keyword
highlight default link stationAtom Operator
highlight default link stationType Type
highlight default link stationReserved Constant
highlight default link stationNumber Number
highlight default link stationName Identifier
highlight default link stationField Identifier
highlight default link stationDeclared Function
highlight default link stationBad Error

let b:current_syntax = 'station'
