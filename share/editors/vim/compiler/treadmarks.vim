" `:compiler treadmarks`, then `:make`: the faults and warnings of `lint` as Vim's list of faults.
if exists("current_compiler")
    finish
endif
let current_compiler = "treadmarks"

CompilerSet makeprg=treadmarks\ lint\ %:S
CompilerSet errorformat=%f:%l:%c:\ %trror:\ %m,%f:%l:%c:\ %tarning:\ %m,%-G%.%#
