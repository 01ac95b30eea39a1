#!/usr/bin/env bash
# Solves the shared instances whose optimum is known, the smallest first, and has each proof checked by the verifier. It fails where a
# length is not the optimum or a proof is not accepted. .ci/run calls it on the smallest ones; without the folder there is nothing to do.
#
#   bench/solve.sh [SHARED] [MOST] [BUDGET]     the instances of at most MOST cities (default 60), with a budget (default 65536);
#                                               from 60 on also an instance that a seed draws, twice
#   ZUKONAWI_PROGRAMS=FOLDER                    the programs of that folder
#   YARDSTICK=../shared/yardstick/bc            prints beside each the seconds of that program, which prints its own length
set -u
top=$(cd "$(dirname "$0")/.." && pwd)
shared=${1:-$top/../shared}
most=${2:-60}
budget=${3:-65536}
if [ ! -f "$shared/instances/optima.tsv" ]; then
    echo "solve.sh: no instances in $shared: skipped"
    exit 0
fi
. "$top/bench/programs.sh"
programs || exit 1
work=$(mktemp -d)
trap 'rm -rf "$work"' EXIT

# runs a command; sets `took` to its seconds of processor time and leaves its output in $work/text
timed() {
    local TIMEFORMAT='%U'
    took=$({ time "$@" >"$work/text" 2>"$work/errors"; } 2>&1)
}

wrong=0
printf '%-16s %5s %10s %7s %9s %9s %9s %s\n' instance n length nodes solve-s verify-s other-s answer
while IFS=$'\t' read -r file n kind optimum; do
    [ "$n" -le "$most" ] || continue
    rm -f "$work"/proof "$work"/slots.*
    timed "$solver" solve "$shared/instances/$file" "$work/proof" "$work/slots" --budget "$budget"
    solve=$took
    answer=$(head -1 "$work/text")
    nodes=$(grep -a -c '^[LEK] ' "$work/proof" 2>/dev/null)
    check=-
    good=no
    if [ "$answer" = "OPTIMAL $optimum" ]; then
        timed "$verifier" "$shared/instances/$file" "$work/proof"
        check=$took
        [ "$(cat "$work/text")" = "VERIFIED $optimum" ] && good=yes
    elif [ "$budget" -lt 65536 ] && [ "${answer%% *}" = STOPPED ]; then
        good=stopped
    fi
    other=-
    if [ -n "${YARDSTICK:-}" ]; then
        timed "$YARDSTICK" "$shared/instances/$file"
        other=$took
    fi
    printf '%-16s %5s %10s %7s %9s %9s %9s %s\n' "$file" "$n" "${answer#* }" "${nodes:--}" "$solve" "$check" "$other" "$good"
    [ "$good" = no ] && wrong=$((wrong + 1))
done < <(tail -n +2 "$shared/instances/optima.tsv" | awk -F'\t' '$4 != "-"' | sort -t"$(printf '\t')" -k2,2n)
if [ "$most" -ge 60 ]; then
    # a drawn instance twice: the same text and bytes
    for run in 1 2; do
        "$solver" bench 7 200 500 "$work/out$run" >"$work/told$run"
    done
    echo "bench 7 200 500 twice: $(cat "$work/told1")"
    cmp -s "$work/told1" "$work/told2" && cmp -s "$work/out1" "$work/out2" || wrong=$((wrong + 1))
fi
[ "$wrong" -eq 0 ] || { echo "solve.sh: $wrong wrong" >&2; exit 1; }
