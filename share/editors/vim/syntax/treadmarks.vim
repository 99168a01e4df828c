" Syntax of programs of treadmarks.
if exists("b:current_syntax")
    finish
endif

syntax keyword treadmarksStatement acquire release with barrier print assert
syntax keyword treadmarksConditional if else
syntax keyword treadmarksRepeat while for in
syntax keyword treadmarksDeclaration words locks contained
syntax keyword treadmarksNamed const shared lock fn
syntax keyword treadmarksWord and or not
syntax keyword treadmarksConstant me nodes
syntax match treadmarksHead "\<\(words\|locks\)\>\s*\d*" contains=treadmarksDeclaration,treadmarksNumber
syntax match treadmarksNumber "\<\d\+\>"
syntax match treadmarksOperator "[-+*/%=<>!]\|\.\."
syntax match treadmarksShared "\[[^]]*\]" contains=treadmarksNumber,treadmarksOperator,treadmarksWord,treadmarksConstant
syntax match treadmarksComment "#.*$" contains=treadmarksLabel
syntax match treadmarksLabel "#:\s*\(words\?\|lock\)\s.*$" contained

highlight default link treadmarksStatement Statement
highlight default link treadmarksConditional Conditional
highlight default link treadmarksRepeat Repeat
highlight default link treadmarksDeclaration Keyword
highlight default link treadmarksNamed Keyword
highlight default link treadmarksWord Operator
highlight default link treadmarksConstant Constant
highlight default link treadmarksNumber Number
highlight default link treadmarksOperator Operator
highlight default link treadmarksShared Identifier
highlight default link treadmarksComment Comment
highlight default link treadmarksLabel SpecialComment

let b:current_syntax = "treadmarks"
