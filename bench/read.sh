#!/usr/bin/env bash
# Reads every instance of ../shared/instances, checks the lengths of the optimal tours that lie there, and times the
# reader on texts of its own. Outside the gate. Prints a table; figures go into docs/PERFORMANCE.md.
#
#   bench/read.sh [INSTANCES]
set -eu
top=$(cd "$(dirname "$0")/.." && pwd)
instances=${1:-$top/../shared/instances}
. "$top/bench/workspace.sh"
workspace readbench 'tspinst ports cyc anyhow'
cat >"$work/crates/readbench/src/main.rt" <<'RT'
//! readbench INSTANCE [CITY ..]: reads an instance and prints its size, or its refusal; with cities, the length of the tour.
#![tactic(auto)]

use anyhow::{Result, anyhow, bail};
use cyc::Tour;
use ports::{Desk, FileDesk, Inlet};
use std::env;
use std::time::Instant;
use tspinst::{ReadError, read};

fn main(rt: HostRuntime) -> Result<()> {
    let mut words = Vec::new(rt.alloc());
    for word in env::args(&rt)? {
        words.push(word)?;
    }
    let Some(path) = words.get(1) else { bail!("no path") };
    let mut desk = FileDesk::new(rt.clone()?);
    if desk.bind_in(Inlet::Instance, path.as_str()).is_err() {
        bail!("not opened");
    }
    let start = Instant::now(&rt)?;
    let outcome = read(rt.alloc(), &mut desk);
    let spent = start.elapsed(&rt)?.as_micros();
    let instance = match outcome {
        Ok(instance) => instance,
        Err(ReadError::Refused(refusal)) => bail!("refused {} {}", refusal.number(), refusal.line()),
        Err(ReadError::Failed) => bail!("failed"),
        Err(ReadError::NoMemory) => bail!("no memory"),
    };
    let n = instance.n();
    let mut cities = Vec::new(rt.alloc());
    for word in words.iter().skip(2) {
        let city = word.as_str().parse::<u32>().map_err(|_| anyhow!("not a city"))?;
        cities.push(city.saturating_sub(1))?;
    }
    if cities.is_empty() {
        println!(rt; "{n} {spent}")?;
        return Ok(());
    }
    let Ok(tour) = Tour::new(rt.alloc(), n, cities) else { bail!("not a tour") };
    if tour.n() == n {
        println!(rt; "{n} {spent} {}", instance.length(&tour))?;
    }
    Ok(())
}
RT
echo "building .." >&2
(cd "$work/crates/readbench" && rt fmt >/dev/null 2>&1; rt run -- x >"$work/log" 2>&1 || true)
program=$work/crates/readbench/out/readbench
[ -x "$program" ] || { cat "$work/log" >&2; exit 1; }

failed=0
printf '%-16s %6s %10s\n' instance n 'time (us)'
for file in "$instances"/*.tsp; do
    name=$(basename "$file" .tsp)
    if row=$("$program" "$file" 2>&1); then
        printf '%-16s %6s %10s\n' "$name" $row
    else
        printf '%-16s NOT READ: %s\n' "$name" "$row"; failed=1
    fi
done

for file in "$instances"/*.opt.tour; do
    name=$(basename "$file" .opt.tour)
    cities=$(sed -n '/TOUR_SECTION/,/-1/p' "$file" | tr -s ' \n' '\n' | grep -E '^[0-9]+$' | tr '\n' ' ')
    want=$(awk -F'\t' -v n="$name.tsp" '$1 == n { print $4 }' "$instances/optima.tsv")
    got=$("$program" "$instances/$name.tsp" $cities | awk '{ print $3 }')
    printf '%-16s optimal tour %s, known optimum %s\n' "$name" "$got" "$want"
    [ "$got" = "$want" ] || failed=1
done

python3 - "$work" <<'PY'
import random, sys
work, n = sys.argv[1], 2000
draw = random.Random(1)
row = lambda k: ' '.join(str(draw.randrange(1 << 20)) for _ in range(k))
head = f'NAME : b\nTYPE : TSP\nDIMENSION : {n}\n'
table = [[0] * n for _ in range(n)]
for i in range(n):
    for j in range(i):
        table[i][j] = table[j][i] = draw.randrange(1 << 20)
with open(work + '/full.tsp', 'w') as f:
    f.write(head + 'EDGE_WEIGHT_TYPE : EXPLICIT\nEDGE_WEIGHT_FORMAT : FULL_MATRIX\nEDGE_WEIGHT_SECTION\n')
    for line in table: f.write(' '.join(map(str, line)) + '\n')
with open(work + '/upper.tsp', 'w') as f:
    f.write(head + 'EDGE_WEIGHT_TYPE : EXPLICIT\nEDGE_WEIGHT_FORMAT : UPPER_ROW\nEDGE_WEIGHT_SECTION\n')
    for i, line in enumerate(table): f.write(' '.join(map(str, line[i + 1:])) + '\n')
with open(work + '/points.tsp', 'w') as f:
    f.write(head + 'EDGE_WEIGHT_TYPE : EUC_2D\nNODE_COORD_SECTION\n')
    for i in range(n): f.write(f'{i + 1} {draw.randrange(1 << 20)} {draw.randrange(1 << 20)}\n')
PY
printf '%-16s %10s %10s %8s\n' text bytes 'time (us)' 'ns/byte'
for name in full upper points; do
    bytes=$(stat -c %s "$work/$name.tsp")
    best=
    for _ in 1 2 3; do
        spent=$("$program" "$work/$name.tsp" | awk '{ print $2 }')
        if [ -z "$best" ] || [ "$spent" -lt "$best" ]; then best=$spent; fi
    done
    printf '%-16s %10s %10s %8s\n' "$name" "$bytes" "$best" "$(awk -v t="$best" -v b="$bytes" 'BEGIN { printf "%.1f", 1000 * t / b }')"
done
exit $failed
