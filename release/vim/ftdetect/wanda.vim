" Systems end in .afs. Certificates have no ending of their own, so their first line tells them.
autocmd BufNewFile,BufRead *.afs setfiletype wanda
autocmd BufRead *.cert,*.found if getline(1) =~# '^\%(YES [12]\|NO 1\)$' | set filetype=wandacert | endif
