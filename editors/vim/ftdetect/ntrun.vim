" Scripts of ntrun and ntlab.
autocmd BufRead,BufNewFile *.ntrun,*.script setfiletype ntrun
