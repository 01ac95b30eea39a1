# Sourced by the scripts beside it, with `top` set: a copy of the repository in which a program of a bench is proved and built.
#
#   workspace NAME 'DEP DEP ..'    sets `work`, a folder that is removed at the end, where the crate NAME is listed and empty
workspace() {
    work=$(mktemp -d)
    trap 'rm -rf "$work"' EXIT
    cp "$top/HANDLES" "$work/"
    cp -r "$top/crates" "$work/crates"
    { cat "$top/crates.txt"; echo "$1: $2"; } >"$work/crates.txt"
    mkdir -p "$work/crates/$1/src" "$work/crates/$1/specs" "$work/crates/$1/proofs"
    touch "$work/crates/$1/specs/Lib.antt" "$work/crates/$1/proofs/Lib.antt"
}
