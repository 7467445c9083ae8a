# fish completion for kodliwe
# fish joins options of -s, as -fh. kodliwe does not, so its short options are of -o.
complete -c kodliwe -f
complete -c kodliwe -o i -l input -r -F -d 'Read this file; - is standard input'
complete -c kodliwe -o o -l output -r -F -d 'Write this file, once all of it is written'
complete -c kodliwe -l hash -d 'Keep the hashes of legacy symbols'
complete -c kodliwe -o f -l fold -d 'Print generic arguments as _'
complete -c kodliwe -o l -l limit -x -d 'Cut each path at this many bytes'
complete -c kodliwe -l man -d 'Print the manual page'
complete -c kodliwe -l completions -x -a 'bash zsh fish' -d 'Print the completions of a shell'
complete -c kodliwe -o h -l help -d 'Print the help'
complete -c kodliwe -o V -l version -d 'Print the version, how it was built, and the licence'
