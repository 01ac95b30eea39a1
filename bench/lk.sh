#!/usr/bin/env bash
# Times chained Lin-Kernighan beside a plain C++ one (../shared/yardstick/lk.cpp), in one run: tours of the shared
# instances with n and 10 n kicks, several seeds each, and the mean of how far they are above the optimum or, where none is
# known, above the shortest tour that came up. Outside the gate. Figures go into docs/PERFORMANCE.md.
#
#   bench/lk.sh [SHARED] [SEEDS] [LEAST]      (LEAST: instances of so many cities or more)
set -eu
top=$(cd "$(dirname "$0")/.." && pwd)
shared=${1:-$top/../shared}
seeds=${2:-3}
least=${3:-0}
. "$top/bench/workspace.sh"
workspace lkbench 'linkern neigh tspinst ports cyc anyhow'
cat >"$work/crates/lkbench/src/main.rt" <<'RT'
//! lkbench INSTANCE KICKS SEED: improves the nearest-neighbour walk with so many kicks for each city. Prints the number of
//! cities, the walk's length, the tour's, and microseconds of the processor: for the near lists, and for all but reading.
#![tactic(auto)]

use anyhow::{Result, anyhow, bail};
use linkern::improve;
use neigh::{nearest, nearest_walk};
use ports::{Desk, FileDesk, Inlet};
use std::env;
use std::time::CpuClock;
use tspinst::{ReadError, read};

fn main(rt: HostRuntime) -> Result<()> {
    let mut words = Vec::new(rt.alloc());
    for word in env::args(&rt)? {
        words.push(word)?;
    }
    let (Some(path), Some(kicks), Some(seed)) = (words.get(1), words.get(2), words.get(3)) else {
        bail!("three words");
    };
    let kicks = kicks.as_str().parse::<u32>().map_err(|_| anyhow!("kicks"))?;
    let seed = seed.as_str().parse::<u64>().map_err(|_| anyhow!("seed"))?;
    let mut desk = FileDesk::new(rt.clone()?);
    if desk.bind_in(Inlet::Instance, path.as_str()).is_err() {
        bail!("not opened");
    }
    let instance = match read(rt.alloc(), &mut desk) {
        Ok(instance) => instance,
        Err(ReadError::Refused(_)) => bail!("refused"),
        Err(ReadError::Failed) => bail!("failed"),
        Err(ReadError::NoMemory) => bail!("no memory"),
    };
    let n = instance.n();
    let start = rt.thread_cpu_time()?;
    let near = nearest(rt.alloc(), &instance, (n - 1).min(10))?;
    let listed = rt.thread_cpu_time()?;
    let walk = nearest_walk(rt.alloc(), &instance)?;
    if walk.n() != n || near.n() != n {
        bail!("cities");
    }
    let tour = improve(rt.alloc(), &instance, &near, &walk, kicks.saturating_mul(n), seed)?;
    let end = rt.thread_cpu_time()?;
    let lists = listed.saturating_sub(start).as_micros();
    let all = end.saturating_sub(start).as_micros();
    let first = instance.length(&walk);
    if tour.n() == n {
        println!(rt; "{n} {first} {} {lists} {all}", instance.length(&tour))?;
    }
    Ok(())
}
RT
echo "building .." >&2
(cd "$work/crates/lkbench" && rt fmt >/dev/null 2>&1; rt run -- x 1 1 >"$work/log" 2>&1 || true)
program=$work/crates/lkbench/out/lkbench
[ -x "$program" ] || { cat "$work/log" >&2; exit 1; }
[ -z "${KEEP:-}" ] || cp "$program" "$KEEP"
cp "$shared"/yardstick/tsp.hpp "$shared"/yardstick/lk.cpp "$work/"
g++ -O2 -std=c++17 -o "$work/lk" "$work/lk.cpp"

python3 - "$program" "$work/lk" "$shared/instances" "$seeds" "$least" <<'PY'
import subprocess, sys
ours, theirs, folder, seeds, least = sys.argv[1], sys.argv[2], sys.argv[3], int(sys.argv[4]), int(sys.argv[5])
rows = [line.split('\t') for line in open(folder + '/optima.tsv').read().splitlines()[1:]]
run = lambda *words: subprocess.run([str(w) for w in words], capture_output=True, text=True).stdout.split()
print(f"{'instance':<12} {'n':>5} {'kicks':>6} {'ours (%)':>9} {'C++ (%)':>9} {'ours (s)':>9} {'C++ (s)':>9} {'ratio':>6} {'lists (ms)':>11}")
for name, n, kind, optimum in sorted(rows, key=lambda r: int(r[1])):
    n, file = int(n), f'{folder}/{name}'
    if n < least:
        continue
    found, spent = {}, {}
    for kicks in (1, 10):
        if kicks == 10 and n > 1000:
            continue
        a = [run(ours, file, kicks, seed) for seed in range(1, seeds + 1)]
        b = [run(theirs, file, kicks, seed) for seed in range(1, seeds + 1)]
        found[kicks] = ([int(r[2]) for r in a], [int(r[1]) for r in b if len(r) > 5])
        spent[kicks] = ([int(r[4]) / 1e6 for r in a], [float(r[5]) for r in b if len(r) > 5], [int(r[3]) / 1e3 for r in a])
    best = int(optimum) if optimum != '-' else min(x for pair in found.values() for xs in pair for x in xs)
    mark = '' if optimum != '-' else ' (above the shortest found)'
    mean = lambda xs: sum(xs) / len(xs) if xs else float('nan')
    for kicks in found:
        above = [100 * (mean(xs) / best - 1) for xs in found[kicks]]
        s, t, lists = [mean(xs) for xs in spent[kicks]]
        print(f"{name[:-4]:<12} {n:>5} {str(kicks) + 'n':>6} {above[0]:>9.3f} {above[1]:>9.3f} {s:>9.4f} {t:>9.4f} {s / max(t, 0.001):>6.2f} {lists:>11.2f}{mark}", flush=True)
PY
