" Fields are separated by one tab; every line is ended by LF.
if exists('b:did_ftplugin')
  finish
endif
let b:did_ftplugin = 1
setlocal noexpandtab softtabstop=0 tabstop=8 fileformat=unix fixendofline
let b:undo_ftplugin = 'setlocal expandtab< softtabstop< tabstop< fileformat< fixendofline<'
