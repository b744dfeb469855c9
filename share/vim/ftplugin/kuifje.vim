" What Vim does in a Kuifje program: comments, and `:make`, which asks for the hyper and reads a refusal's place.
if exists('b:did_ftplugin')
    finish
endif
let b:did_ftplugin = 1

setlocal comments=:# commentstring=#\ %s
setlocal makeprg=kuifje\ hyper\ %:S\ 2>&1
setlocal errorformat=kuifje:\ %f:%l:%c:\ %m

let b:undo_ftplugin = 'setlocal comments< commentstring< makeprg< errorformat<'
