# fish completion for bpfrec, which says itself what it takes

complete -c bpfrec -f -k -a '(bpfrec complete (commandline -opc)[2..] (commandline -ct) 2> /dev/null)'
