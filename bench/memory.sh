#!/usr/bin/env bash
# Each allocation refused, one at a time, in the built programs: the square solved, resumed and verified, the prism solved, and, where the
# program knows their commands, a tape of the square replayed and a bound of the prism. Each run must end with status 9 and have taken nothing,
# or give the answer of the run with all its memory: the same status and text, and files that are accepted. Not part of the gate.
#
#   bench/memory.sh [MOST] [CASE..]          at most MOST allocations of each case (default all), and the cases named (default all)
#   ZUKONAWI_PROGRAMS=FOLDER                 the programs of that folder
#
# The allocations are those that the program asks of the C library, counted by bench/fail_alloc.c; so one build serves all runs, where
# `rt try --fail-alloc N` builds the program anew for each N (and those of bench/unproved.py have an allocator of their own, which cannot be
# counted so). Needs cc. Prints for each case how many allocations its run makes, and how many
# of the runs ended with status 9.
set -u
top=$(cd "$(dirname "$0")/.." && pwd)
. "$top/bench/programs.sh"
programs || exit 1
most=${1:-1000000}
cases=("${@:2}")
work=$(mktemp -d)
trap 'rm -rf "$work"' EXIT
ulimit -c 0
cc -O1 -shared -fPIC -o "$work/fail.so" "$top/bench/fail_alloc.c" || exit 1

cp "$top/examples/square.tsp" "$work/square.tsp"
cat >"$work/prism.tsp" <<'T'
TYPE : TSP
DIMENSION : 6
EDGE_WEIGHT_TYPE : EXPLICIT
EDGE_WEIGHT_FORMAT : UPPER_ROW
EDGE_WEIGHT_SECTION
1 1 0 100 100
1 100 0 100
100 100 0
1 1
1
EOF
T
"$solver" solve "$work/square.tsp" "$work/square.proof" "$work/stopped" --budget 0 >/dev/null
"$solver" solve "$work/square.tsp" "$work/square.proof" "$work/any" >/dev/null
# two events: a grunt asks for a node, and the lease runs out
printf '\0\0\0\5\1\0\0\0\1\0\0\0\5\4\0\0\0\0' >"$work/tape"

wrong=0
wrong() { echo "WRONG: $*" >&2; wrong=1; }

# puts into the folder `at` what a case's run finds there
prepare() {
    rm -rf "$work/at"
    mkdir "$work/at"
    [ "$1" != resume ] || cp "$work/stopped.0" "$work/at/restart.0"
}
# runs the words with the allocation of that number refused, 0 for none; sets status, text and count
run() {
    rm -f "$work/count"
    # (by env, so that the allocations of `timeout` are neither counted nor refused)
    text=$(cd "$work/at" && timeout 120 env FAIL_ALLOC="$1" FAIL_ALLOC_COUNT="$work/count" LD_PRELOAD="$work/fail.so" "${@:2}" 2>"$work/errors" </dev/null; echo "status $?")
    status=${text##*status }
    count=$(od -An -td8 "$work/count" 2>/dev/null | tr -d ' ')
    count=${count:-0}
}
# whether what a run left is what the run with all its memory left: an accepted proof, or no file that was not there before
left() {
    case $1 in
    square | alone | prism | resume) [ -f "$work/at/proof" ] && "$verifier" "$work/$2" "$work/at/proof" >/dev/null ;;
    *) true ;;
    esac
}
# whether nothing was taken: no text (of a tape, which is answered as it is read, a front of the lines), no proof, and slots that still hold their body
nothing() {
    if [ "$1" = replay ]; then
        [[ "$answer" == "${text%status 9}"* ]]
        return
    fi
    [ "$text" = "status 9" ] && [ ! -s "$work/at/proof" ] && [ ! -s "$work/at/certificate" ] &&
        { [ "$1" != resume ] || cmp -s "$work/stopped.0" "$work/at/restart.0"; }
}

try() { # NAME INSTANCE WORD..
    local name=$1 instance=$2 number=0 refused=0 whole answer
    [ ${#cases[@]} = 0 ] || [[ " ${cases[*]} " == *" $name "* ]] || return 0
    prepare "$name"
    run 0 "${@:3}"
    answer=$text
    whole=$count
    [ "$whole" -gt 0 ] || { wrong "$name: no allocation was counted ($text)"; return; }
    left "$name" "$instance" || wrong "$name: the run with all its memory ($text)"
    # threads ask for memory in an order that changes, so the end is where a run comes to its end without the allocation that is refused
    while [ $((++number)) -le "$most" ]; do
        prepare "$name"
        run "$number" "${@:3}"
        if [ "$status" = 9 ]; then
            refused=$((refused + 1))
            nothing "$name" || wrong "$name: allocation $number: status 9, and something was taken ($text)"
        elif [ "$text" != "$answer" ]; then
            wrong "$name: allocation $number: $text"
        else
            left "$name" "$instance" || wrong "$name: allocation $number: what was left"
        fi
        [ "$count" -ge "$number" ] || break
    done
    echo "$name: $whole allocations; $((number - 1)) refused one at a time, $refused runs ended with status 9, the others with the answer"
}

try square square.tsp "$solver" solve "$work/square.tsp" proof restart
try alone square.tsp "$solver" solve "$work/square.tsp" proof restart --grunts 1
try resume square.tsp "$solver" solve "$work/square.tsp" proof restart --resume
try verify square.tsp "$solver" verify "$work/square.tsp" "$work/square.proof"
try tspverify square.tsp "$verifier" "$work/square.tsp" "$work/square.proof"
try prism prism.tsp "$solver" solve "$work/prism.tsp" proof restart
if "$solver" | grep -q /replay; then
    try replay square.tsp "$solver" replay "$work/square.tsp" "$work/tape" --budget 1 --grunts 1
else
    echo "replay: this program does not know it"
fi
if "$solver" | grep -q /checkbound; then
    try bound prism.tsp "$solver" bound "$work/prism.tsp" certificate --steps 2
else
    echo "bound: this program does not know it"
fi
exit $wrong
