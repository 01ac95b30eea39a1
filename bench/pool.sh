#!/usr/bin/env bash
# Times what a node fetches from a pool of cuts that is full: 65,536 drawn subtour cuts of about ten cities, and values of three pairs a
# city. Outside the gate. Prints a table; figures go into docs/PERFORMANCE.md.
#
#   bench/pool.sh
set -eu
top=$(cd "$(dirname "$0")/.." && pwd)
. "$top/bench/workspace.sh"
workspace poolbench 'cyc cutform cutpool anyhow'
cat >"$work/crates/poolbench/src/main.rt" <<'RT'
//! poolbench N: the cuts in the pool, the microseconds of the processor to put them all in, those of a fetch, and how many it gave.
#![tactic(auto)]

use anyhow::{Result, anyhow, bail};
use cutform::Cut;
use cutpool::CutPool;
use cyc::{CitySet, Entry, Frac};
use std::alloc::Global;
use std::env;
use std::time::CpuClock;

/// The next of some numbers that look drawn.
fn next(state: u64) -> u64 {
    state
        .wrapping_mul(6_364_136_223_846_793_005)
        .wrapping_add(1_442_695_040_888_963_407)
}

/// Half a length to the next city, and values that look drawn to two others.
fn drawn(alloc: Global, n: u32) -> Result<Frac> {
    if n < 20 || n > 2000 {
        bail!("size");
    }
    let mut entries = Vec::new(alloc);
    let mut state: u64 = 5;
    for u in 0..n {
        for leap in [1u32, 2, 7] {
            state = next(state);
            let v = (u + leap) % n;
            let x = if leap == 1 { 786_432 } else { (state >> 46) as u32 };
            entries.push(Entry { u, v, x })?;
        }
    }
    Ok(Frac::new(alloc, n, entries)?)
}

/// Ten cities or so that look drawn, rising.
fn cities(alloc: Global, n: u32, state: &mut u64) -> Result<Vec<u32>> {
    let mut cities = Vec::new(alloc);
    for v in 0..n {
        *state = next(*state);
        if (*state >> 33) % u64::from(n.max(1)) < 10 {
            cities.push(v)?;
        }
    }
    Ok(cities)
}

fn main(rt: HostRuntime) -> Result<()> {
    let alloc = rt.alloc();
    let mut words = Vec::new(alloc);
    for word in env::args(&rt)? {
        words.push(word)?;
    }
    let Some(word) = words.get(1) else {
        bail!("one word");
    };
    let n = word.as_str().parse::<u32>().map_err(|_| anyhow!("cities"))?;
    if n < 20 || n > 2000 {
        bail!("size");
    }
    let x = drawn(alloc, n)?;
    let mut pool = CutPool::new(alloc, n);
    let mut state: u64 = 9;
    let from = rt.thread_cpu_time()?;
    for _ in 0..65_536 {
        let set = CitySet::new(alloc, n, cities(alloc, n, &mut state)?)?;
        if let Ok(cut) = Cut::subtour(alloc, set) {
            if cut.n() == pool.n() {
                pool.put(alloc, &cut)?;
            }
        }
    }
    let filled = rt.thread_cpu_time()?.saturating_sub(from).as_micros();
    let from = rt.thread_cpu_time()?;
    let given = if x.n() == pool.n() { pool.violated(alloc, &x)?.len() } else { 0 };
    let fetched = rt.thread_cpu_time()?.saturating_sub(from).as_micros();
    println!(rt; "{n} {} {filled} {fetched} {given}", pool.len())?;
    Ok(())
}
RT
echo "building .." >&2
cd "$work/crates/poolbench"
rt fmt >/dev/null 2>&1 || true
rt run -- 20 >"$work/log" 2>&1 || true
[ -x out/poolbench ] || { cat "$work/log" >&2; exit 1; }
printf '%6s %8s %12s %12s %8s\n' n cuts put-us fetch-us given
for n in 100 200 500 1000 2000; do
    printf '%6s %8s %12s %12s %8s\n' $(./out/poolbench $n)
done
