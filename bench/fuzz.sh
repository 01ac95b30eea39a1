#!/usr/bin/env bash
# Hostile texts of each kind through the built programs, on all processors: see bench/fuzz.py. Outside the gate.
#
#   bench/fuzz.sh [COUNT] [SEED] [KIND..]      (default 1000 1 and all kinds) prints the counts and the seconds that it took
set -u
top=$(cd "$(dirname "$0")/.." && pwd)
. "$top/bench/programs.sh"
programs || exit 1
ulimit -c 0
jobs=${JOBS:-$(nproc)}
"$top/bench/fuzz.py" "${1:-1000}" "${2:-1}" "$jobs" "${@:3}"
status=$?
echo "fuzz.sh: $SECONDS seconds on $jobs processors"
exit $status
