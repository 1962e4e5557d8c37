" Files of netconf's description language.
autocmd BufRead,BufNewFile *.net setfiletype netconf
