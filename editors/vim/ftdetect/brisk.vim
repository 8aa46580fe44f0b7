autocmd BufNewFile,BufRead *.brisk,*.seq setfiletype brisk
autocmd BufNewFile,BufRead *.schedule,*.choices setfiletype briskschedule
autocmd BufNewFile,BufRead *.derivation setfiletype briskderivation
