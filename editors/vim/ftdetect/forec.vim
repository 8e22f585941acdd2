" Files that end with .forec are ForeC programs.
autocmd BufRead,BufNewFile *.forec setfiletype forec
