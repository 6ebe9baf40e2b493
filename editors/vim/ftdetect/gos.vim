" Sources and pulse files of gos, by how their names end; build files by their first statement. Vim itself takes `.pls` for PL/SQL.
autocmd BufNewFile,BufRead *.gos set filetype=gos
autocmd BufNewFile,BufRead *.pls set filetype=gospulses
autocmd BufNewFile,BufRead *.txt if search('^\s*gosbuild\s', 'nw') | set filetype=gosbuild | endif
