" Highlighting of the kernel language of Oz.
if exists('b:current_syntax')
  finish
endif
syntax case match
syntax iskeyword a-z,A-Z,48-57,_

" Names. What stands further down in this file wins at the same place.
syntax match ozAtom /\<[a-z][A-Za-z0-9_]*/
syntax match ozLabel /\<[a-z][A-Za-z0-9_]*\ze(/
syntax match ozVariable /\<[A-Z][A-Za-z0-9_]*/
syntax match ozFunction /{\@1<=[A-Z][A-Za-z0-9_]*/
syntax match ozNumber /\~\?[0-9]\+/

" Symbols.
syntax match ozOperator /[=<>+*@|#.:-]/
syntax match ozOperator /\\=:\?/
syntax match ozBracket /[(){}]/
syntax match ozBracket /\[/
syntax match ozBracket /\]/
syntax match ozAlternative /\[\]/
syntax match ozWild /[_$]/

" Texts.
syntax match ozEscape /\\[nt\\'"]/ contained
syntax region ozString start=/"/ end=/"/ contains=ozEscape
syntax region ozQuoted start=/'/ end=/'/ contains=ozEscape
syntax match ozCharacter /&\(\\[nt\\'"]\|[ -\[\]-~]\)/

" Words.
syntax keyword ozKeyword case catch choice else elseif end fail fun if in local of proc raise skip then thread try
syntax keyword ozWordOperator andthen div mod orelse
syntax keyword ozLiteral true false unit
syntax keyword ozReserved at attr class cond declare define dis elsecase elseof export feat finally from functor
syntax keyword ozReserved import lock meth not or prepare prop require self
syntax keyword ozBuiltin Access Arity Ask Assign ByNeed Choose Clone Commit Exchange FD Inject Label Merge NewCell NewName
syntax keyword ozBuiltin NewPort NewSpace Script Send Show Wait Width

" Comments.
syntax match ozComment /%.*/
syntax region ozComment start=+/\*+ end=+\*/+

highlight default link ozComment Comment
highlight default link ozString String
highlight default link ozQuoted String
highlight default link ozEscape SpecialChar
highlight default link ozCharacter Character
highlight default link ozNumber Number
highlight default link ozKeyword Keyword
highlight default link ozAlternative Keyword
highlight default link ozWordOperator Operator
highlight default link ozOperator Operator
highlight default link ozBracket Delimiter
highlight default link ozLiteral Boolean
highlight default link ozReserved Error
highlight default link ozBuiltin Special
highlight default link ozFunction Function
highlight default link ozVariable Identifier
highlight default link ozLabel Type
highlight default link ozAtom Constant
highlight default link ozWild Special

let b:current_syntax = 'oz'
