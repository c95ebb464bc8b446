" Device sources of the explicit form (docs/LANGUAGE.md, "The explicit form").
"
" Three groups are marked as errors, by tokens alone: rewireNoToken, a byte at which no token starts, rewireNotOfForm, a
" token that no source of the form has, and rewireComment. What is refused for its place or its name isn't marked.
if exists("b:current_syntax")
  finish
endif

syntax case match
syntax iskeyword a-z,A-Z,48-57,_,39
syntax sync fromstart

" Of two items that match at one place Vim takes the later one, and a keyword before both.
syntax match rewireNoToken /[^ \t\r\x0c]/
syntax match rewireNotOfForm /[0-9]\+/
syntax match rewireNotOfForm /[,`]/
syntax match rewireNotOfForm /[-!#$%&*+./<=>?@\\^|~:]\+/
syntax match rewireOperator /\%(::\|>>=\|->\|[=|\\]\)\%([-!#$%&*+./<=>?@\\^|~:]\)\@!/
syntax match rewirePunctuation /[(){};]/
syntax match rewireFunction /[a-z_][A-Za-z0-9_']*/
syntax match rewireConstructor /[A-Z][A-Za-z0-9_']*/
syntax keyword rewireKeyword data case of
syntax keyword rewireOperation start signal
syntax keyword rewireType Bool ReT I
syntax keyword rewireBoolean False True
syntax keyword rewireNotOfForm class default deriving do else foreign if import in infix infixl infixr instance let module
syntax keyword rewireNotOfForm newtype then type where _
syntax match rewireComment /---*\%([-!#$%&*+./<=>?@\\^|~:]\)\@!.*$/
syntax region rewireComment start=/{-/ end=/-}/ contains=rewireComment

highlight default link rewireNoToken Error
highlight default link rewireNotOfForm Error
highlight default link rewireComment Error
highlight default link rewireOperator Operator
highlight default link rewirePunctuation Delimiter
highlight default link rewireFunction Identifier
highlight default link rewireConstructor Constant
highlight default link rewireKeyword Keyword
highlight default link rewireOperation Statement
highlight default link rewireType Type
highlight default link rewireBoolean Boolean

let b:current_syntax = "rewire"
