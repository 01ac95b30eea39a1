# fish completion for tspverify
complete -c tspverify -F
