#!/usr/bin/env bash
# Times the least set: on values of three pairs a city that look drawn, beside plain flows from city 0 to each other city;
# and in rounds on degree programs of drawn points, whose light sets become rows until there are none, with blossoms and combs sought
# on the values of each round. Outside the gate. Prints two tables; figures go into docs/PERFORMANCE.md.
#
#   bench/flow.sh
#   RUN='taskset -c 3' bench/flow.sh    on one core
set -eu
top=$(cd "$(dirname "$0")/.." && pwd)
. "$top/bench/workspace.sh"
workspace flowbench 'cyc simplex maxflow sepsub sepblos sepcomb anyhow'
cat >"$work/crates/flowbench/src/main.rt" <<'RT'
//! flowbench drawn N: the least weight, the time of the least set alone, the sets of a sweep, the time of that sweep and, up to
//! 1000, that of the plain flows, whose least is the same. All times are microseconds of the processor.
//! flowbench rounds N: rounds, sets, the longest sweep, all sweeps, the longest search for blossoms and all of them, the same of
//! blossoms of wider handles and of combs, all solves, and how many of the three the last values have.
#![tactic(auto)]

use anyhow::{Result, bail};
use cyc::{CitySet, Entry, Frac};
use maxflow::flow;
use sepblos::{blossoms, wider_blossoms};
use sepcomb::combs;
use sepsub::{least_set, sweep};
use simplex::{Lp, LpAnswer, Row, Sense};
use std::alloc::Global;
use std::env;
use std::time::CpuClock;

/// The next of some numbers that look drawn.
fn next(state: u64) -> u64 {
    state
        .wrapping_mul(6_364_136_223_846_793_005)
        .wrapping_add(1_442_695_040_888_963_407)
}

/// Half a length to the next city, and values that look drawn to two others.
fn drawn(alloc: Global, n: u32) -> Result<Frac> {
    if n < 20 || n > 2000 {
        bail!("size");
    }
    let mut entries = Vec::new(alloc);
    let mut state: u64 = 5;
    for u in 0..n {
        for leap in [1u32, 2, 7] {
            state = next(state);
            let v = (u + leap) % n;
            let x = if leap == 1 { 524_288 } else { (state >> 46) as u32 };
            entries.push(Entry { u, v, x })?;
        }
    }
    Ok(Frac::new(alloc, n, entries)?)
}

fn run_drawn(rt: HostRuntime, n: u32) -> Result<()> {
    let alloc = rt.alloc();
    let x = drawn(alloc, n)?;
    let from = rt.thread_cpu_time()?;
    let least = least_set(alloc, &x)?;
    let alone = rt.thread_cpu_time()?.saturating_sub(from).as_micros();
    let from = rt.thread_cpu_time()?;
    let swept = sweep(alloc, &x)?;
    let sweeping = rt.thread_cpu_time()?.saturating_sub(from).as_micros();
    let from = rt.thread_cpu_time()?;
    let mut plain = u64::MAX;
    if n <= 1000 {
        for t in 1..x.n() {
            plain = plain.min(flow(alloc, &x, 0, t)?.value);
        }
        if plain != swept.least.weight || plain != least.weight {
            bail!("the two differ");
        }
    }
    let plainly = rt.thread_cpu_time()?.saturating_sub(from).as_micros();
    println!(rt; "{n} {} {alone} {} {sweeping} {plainly}", swept.least.weight, swept.sets.len())?;
    Ok(())
}

fn put_set(alloc: Global, lp: &mut Lp, sense: Sense, set: CitySet) -> Result<()> {
    let mut sets = Vec::new(alloc);
    sets.push(set)?;
    if sets[0].n() == lp.n() && sets.len() <= 4096 && lp.rows().len() < 4_194_304 {
        lp.add_row(Row {
            sense,
            rhs: 2,
            sets,
        })?;
    }
    Ok(())
}

/// The degree program of drawn points, with ten near pairs a city.
fn program(alloc: Global, n: u32) -> Result<Lp> {
    if n < 20 || n > 2000 {
        bail!("size");
    }
    let mut points: Vec<(u64, u64)> = Vec::new(alloc);
    let mut state: u64 = 3;
    for _ in 0..n {
        state = next(state);
        let x = state >> 50;
        state = next(state);
        points.push((x, state >> 50))?;
    }
    let mut lp = Lp::new(alloc, n, Vec::new(alloc))?;
    for city in 0..n {
        let mut one = Vec::new(alloc);
        one.push(city)?;
        put_set(alloc, &mut lp, Sense::Eq, CitySet::new(alloc, n, one)?)?;
    }
    let mut best: Vec<(u32, u32)> = Vec::new(alloc);
    for (u, (x, y)) in (0..n).zip(&points) {
        best.clear();
        for (v, (p, q)) in (0..n).zip(&points) {
            let (dx, dy) = (x.abs_diff(*p), y.abs_diff(*q));
            let square = dx.wrapping_mul(dx).wrapping_add(dy.wrapping_mul(dy));
            if u != v {
                best.push(((square.isqrt() & 0x3fff_ffff) as u32, v))?;
            }
        }
        best.sort_unstable();
        for (cost, v) in best.iter().take(10) {
            let (a, b) = (u.min(*v), u.max(*v));
            if a < b && b < lp.n() && !lp.has_col(a, b) {
                lp.add_col(a, b, *cost, false)?;
            }
        }
    }
    Ok(lp)
}

/// How many blossoms, blossoms of wider handles, or combs the values violate.
fn search(alloc: Global, x: &Frac, kind: usize) -> Result<usize> {
    let cuts = match kind {
        0 => blossoms(alloc, x)?,
        1 => wider_blossoms(alloc, x)?,
        _ => combs(alloc, x)?,
    };
    Ok(cuts.len())
}

fn run_rounds(rt: HostRuntime, n: u32) -> Result<()> {
    let alloc = rt.alloc();
    let mut lp = program(alloc, n)?;
    let mut rounds = 0u32;
    let mut found = 0usize;
    let mut longest: u128 = 0;
    let mut sweeping: u128 = 0;
    let mut solving: u128 = 0;
    let mut longest_of: [u128; 3] = [0, 0, 0];
    let mut all_of: [u128; 3] = [0, 0, 0];
    let mut last = [0, 0, 0];
    for _ in 0..200u32 {
        rounds = rounds.wrapping_add(1);
        let from = rt.thread_cpu_time()?;
        lp.solve(alloc, 100_000)?;
        solving = solving.wrapping_add(rt.thread_cpu_time()?.saturating_sub(from).as_micros());
        let Some(LpAnswer::Solved { x, .. } | LpAnswer::Rough { x, .. }) = lp.last() else {
            bail!("no values");
        };
        let from = rt.thread_cpu_time()?;
        let swept = sweep(alloc, x)?;
        let micros = rt.thread_cpu_time()?.saturating_sub(from).as_micros();
        longest = longest.max(micros);
        sweeping = sweeping.wrapping_add(micros);
        for kind in 0..3usize {
            let from = rt.thread_cpu_time()?;
            last[kind] = search(alloc, x, kind)?;
            let micros = rt.thread_cpu_time()?.saturating_sub(from).as_micros();
            longest_of[kind] = longest_of[kind].max(micros);
            all_of[kind] = all_of[kind].wrapping_add(micros);
        }
        found = found.wrapping_add(swept.sets.len());
        if swept.sets.is_empty() {
            break;
        }
        for set in swept.sets {
            put_set(alloc, &mut lp, Sense::AtLeast, set)?;
        }
    }
    println!(rt;
        "{n} {rounds} {found} {longest} {sweeping} {} {} {} {} {} {} {solving} {} {} {}",
        longest_of[0], all_of[0], longest_of[1], all_of[1], longest_of[2], all_of[2], last[0], last[1], last[2]
    )?;
    Ok(())
}

fn main(rt: HostRuntime) -> Result<()> {
    let mut args = env::args(&rt)?;
    let _program = args.next();
    let Some(what) = args.next() else { bail!("drawn or rounds") };
    let Some(word) = args.next() else { bail!("no number") };
    let n = word.parse::<u32>()?;
    if what.as_str() == "drawn" {
        run_drawn(rt, n)
    } else {
        run_rounds(rt, n)
    }
}
RT
echo "building .." >&2
(cd "$work/crates/flowbench" && rt fmt >/dev/null 2>&1; rt run -- drawn 20 >"$work/log" 2>&1 || true)
program=$work/crates/flowbench/out/flowbench
[ -x "$program" ] || { cat "$work/log" >&2; exit 1; }
columns='%6s %12s %12s %6s %12s %12s\n'
printf "$columns" n least 'alone (us)' sets 'sweep (us)' 'plain (us)'
for n in 200 500 1000 2000; do printf "$columns" $(${RUN:-} "$program" drawn $n); done
columns='%6s %7s %6s %9s %9s %9s %9s %9s %9s %9s %9s %10s %8s %6s %6s\n'
printf "\n$columns" n rounds sets longest 'sweeps' longest 'blossoms' longest 'wider' longest 'combs' 'solves us' blossoms wider combs
for n in 100 200 500 1000; do printf "$columns" $(${RUN:-} "$program" rounds $n); done
