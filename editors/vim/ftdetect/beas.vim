au BufRead,BufNewFile *.beas set filetype=beas
