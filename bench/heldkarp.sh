#!/usr/bin/env bash
# Prints the Held-Karp bounds of instances after 0, 10, 100, 1,000 and 10,000 steps, how far each lies below the optimum in percent, and
# the processor time; each certificate is checked again. Outside the gate. Figures go into docs/PERFORMANCE.md.
#
#   bench/heldkarp.sh SHARED            SHARED/instances has the instances, optima.tsv and optima-drawn.tsv
#   PROGRAM=path bench/heldkarp.sh SHARED
set -eu
top=$(cd "$(dirname "$0")/.." && pwd)
shared=$(cd "$1" && pwd)
program=${PROGRAM:-$top/crates/tspc/out/tspc}
[ -x "$program" ] || { echo "no program $program: rt ci leaves it there" >&2; exit 1; }
work=$(mktemp -d)
trap 'rm -rf "$work"' EXIT
python3 "$shared/instances/make_random.py" 5 100 "$work/r100-s5.tsp"
python3 "$shared/instances/make_random.py" 2 200 "$work/r200-s2.tsp"
row() { # NAME FILE OPTIMUM STEPS
    /usr/bin/time -f %U -o "$work/time" "$program" bound "$2" "$work/cert" --steps "$4" >"$work/text"
    bound=$(sed -n 's/^BOUND //p' "$work/text")
    [ "$("$program" checkbound "$2" "$work/cert")" = "CHECKED $bound" ] || { echo "$1: the certificate is refused" >&2; exit 1; }
    awk -v name="$1" -v bound="$bound" -v best="$3" -v steps="$4" -v took="$(cat "$work/time")" \
        'BEGIN { printf "%-10s %6d %12d %12d %7.2f %% %7.2f s\n", name, steps, bound, best, 100 * (best - bound) / best, took }'
}
for steps in 0 10 100 1000 10000; do
    for name in eil51 berlin52 kroA100 gr120; do
        row "$name" "$shared/instances/$name.tsp" "$(awk -v it="$name.tsp" '$1 == it { print $4 " " $5 }' "$shared/instances/optima.tsv" | awk '{ print $NF }')" "$steps"
    done
    row r100-s5 "$work/r100-s5.tsp" 8452345 "$steps"
    row r200-s2 "$work/r200-s2.tsp" 11612810 "$steps"
done
