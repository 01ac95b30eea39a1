# fish completion for tspview
complete -c tspview -F
