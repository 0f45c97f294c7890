" Vim syntax of UNITY documents, written by scripts/editors.sh
if exists("b:current_syntax")
  finish
endif
syntax keyword unitySection unity program declare always initially start assign end proof schedule certificates
syntax keyword unityClaim defined invariant unless stable ensures leadsto
syntax keyword unityKeyword if by using with text weaken conj simpleconj disj simpledisj cancel from union imply trans either exists induct psp case split round div mod quot share until detects constant complete superpose fixed
syntax keyword unityOperatorWord and or not all any sum
syntax keyword unityType boolean array of
syntax keyword unityValue true false
syntax match unityNumber "\<[0-9]\+\>"
syntax match unityComment "#.*$"
syntax match unitySymbol "<||\|<\[\]\|:=\|::\|\.\.\|\[\]\||>\|||\|<=\|>=\|=>\|\/=\|:\|\.\|,\|;\|(\|)\|\[\|\]\|{\|}\|\~\|<\|>\|=\|+\|-\|\*"
highlight default link unitySection Structure
highlight default link unityClaim Statement
highlight default link unityKeyword Keyword
highlight default link unityOperatorWord Operator
highlight default link unityType Type
highlight default link unityValue Boolean
highlight default link unityNumber Number
highlight default link unityComment Comment
highlight default link unitySymbol Operator
let b:current_syntax = "unity"
