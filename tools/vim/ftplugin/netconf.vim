" Settings for files of netconf's description language.
if exists('b:did_ftplugin')
  finish
endif
let b:did_ftplugin = 1

setlocal comments=:// commentstring=//\ %s
compiler netconf

let b:undo_ftplugin = 'setlocal comments< commentstring< makeprg< errorformat<'
