autocmd BufNewFile,BufRead *.play setfiletype smilplay
