#!/usr/bin/env bash
# Runs the commands of each folder of examples/ and compares what they print with its file `stdout`; and sees that the examples of the man pages
# are among them. Takes a second or two.
#
#   bench/examples.sh [NAME..]             (default all)
#   bench/examples.sh --write [NAME..]     writes what they print into the files
#   ZUKONAWI_PROGRAMS=FOLDER               the programs of that folder
set -u
top=$(cd "$(dirname "$0")/.." && pwd)
. "$top/bench/programs.sh"
programs && viewing_program || exit 1
writes=no
[ "${1:-}" != --write ] || { writes=yes; shift; }
work=$(mktemp -d)
trap 'rm -rf "$work"' EXIT
mkdir "$work/bin"
ln -s "$solver" "$work/bin/tspc"
ln -s "$verifier" "$work/bin/tspverify"
ln -s "$viewer" "$work/bin/tspview"
PATH=$work/bin:$PATH

# prints each line of a file of commands, what it prints, and its status where that is not 0
transcript() {
    local line status
    while IFS= read -r line; do
        echo "\$ $line"
        (eval "$line") 2>&1 </dev/null
        status=$?
        [ "$status" = 0 ] || echo "(status $status)"
    done <"$1"
}

wrong=0 count=0
for command in "$top"/examples/*/command; do
    folder=$(dirname "$command")
    name=$(basename "$folder")
    [ $# = 0 ] || [[ " $* " == *" $name "* ]] || continue
    rm -rf "$work/at"
    mkdir "$work/at"
    ln -s "$top/examples" "$work/at/examples"
    (cd "$work/at" && transcript "$command") >"$work/stdout"
    count=$((count + 1))
    if [ "$writes" = yes ]; then
        cp "$work/stdout" "$folder/stdout"
    elif ! diff -u "$folder/stdout" "$work/stdout"; then
        echo "examples.sh: $name prints something else" >&2
        wrong=1
    fi
done
# the examples of the man pages are among them
if [ $# = 0 ]; then
    for page in "$top"/docs/*.1; do
        while IFS= read -r line; do
            if ! cat "$top"/examples/*/command | grep -qxF -- "$line"; then
                echo "examples.sh: $(basename "$page") has a command that is no example: $line" >&2
                wrong=1
            fi
        done < <(sed -n '/^\.SH EXAMPLES/,/^\.fi/p' "$page" | grep -E '^tsp')
    done
fi
[ "$count" -gt 0 ] || { echo "examples.sh: no such example" >&2; exit 2; }
[ "$wrong" != 0 ] || echo "examples.sh: $count examples print what they should"
exit "$wrong"
