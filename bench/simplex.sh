#!/usr/bin/env bash
# Times the simplex, by processor time, on root programs of drawn points and of instances: degree rows over ten near pairs a city, then the
# subtour rows that the parts of the values ask for, and all pairs of negative reduced cost. Outside the gate. Prints a table;
# figures go into docs/PERFORMANCE.md.
#
#   bench/simplex.sh [N | INSTANCE.tsp ..]     by default drawn points, and each instance of ../shared/instances
set -eu
top=$(cd "$(dirname "$0")/.." && pwd)
. "$top/bench/workspace.sh"
workspace lpbench 'cyc ports tspinst lpcheck simplex anyhow'
cat >"$work/crates/lpbench/src/cuts.rt" <<'RT'
//! Sets that are crossed less than twice: the parts of the pairs above several thresholds.
use simplex::Column;
use std::alloc::{AllocError, Global};

const ONE: u64 = 1 << 20;

fn root(parent: &[u32], city: u32) -> u32 {
    let mut at = city;
    for _ in 0..parent.len() {
        match parent.get(at as usize) {
            Some(up) => {
                if *up == at {
                    return at;
                }
                at = *up;
            }
            None => {
                return at;
            }
        }
    }
    at
}

fn parts(
    alloc: Global,
    n: u32,
    cols: &[Column],
    xs: &[u64],
    above: u64,
) -> Result<Vec<u32>, AllocError> {
    let mut parent = Vec::new(alloc);
    for city in 0..n {
        parent.push(city)?;
    }
    for (column, x) in cols.iter().zip(xs) {
        if *x > above {
            let a = root(&parent, column.u);
            let b = root(&parent, column.v);
            if let Some(to) = parent.get_mut(a.max(b) as usize) {
                *to = a.min(b);
            }
        }
    }
    let mut label = Vec::new(alloc);
    for city in 0..n {
        label.push(root(&parent, city))?;
    }
    Ok(label)
}

fn weak(
    alloc: Global,
    n: u32,
    cols: &[Column],
    xs: &[u64],
    label: &[u32],
) -> Result<Vec<u32>, AllocError> {
    let mut weight: Vec<u64> = Vec::new(alloc);
    for _ in 0..n {
        weight.push(0)?;
    }
    for (column, x) in cols.iter().zip(xs) {
        let a = label.get(column.u as usize).copied().unwrap_or(0);
        let b = label.get(column.v as usize).copied().unwrap_or(0);
        if a != b {
            for part in [a, b] {
                if let Some(w) = weight.get_mut(part as usize) {
                    *w = w.wrapping_add(*x);
                }
            }
        }
    }
    let mut found = Vec::new(alloc);
    let whole = label.iter().all(|x| *x == 0);
    for city in 0..n {
        let own = label.get(city as usize) == Some(&city);
        let w = weight.get(city as usize).copied().unwrap_or(0);
        if own && !whole && w < 2 * ONE - ONE / 64 {
            found.push(city)?;
        }
    }
    Ok(found)
}

/// The members of weak sets, in rising order.
pub fn find(
    alloc: Global,
    n: u32,
    cols: &[Column],
    xs: &[u64],
) -> Result<Vec<Vec<u32>>, AllocError> {
    let mut sets: Vec<Vec<u32>> = Vec::new(alloc);
    for step in 0..16u64 {
        let label = parts(alloc, n, cols, xs, step.wrapping_mul(ONE / 16))?;
        for part in weak(alloc, n, cols, xs, &label)? {
            let mut members = Vec::new(alloc);
            for (city, x) in (0..n).zip(&label) {
                if *x == part {
                    members.push(city)?;
                }
            }
            if !sets.iter().any(|s| s.as_slice() == members.as_slice()) {
                sets.push(members)?;
            }
        }
        if step == 0 && !sets.is_empty() {
            return Ok(sets);
        }
    }
    Ok(sets)
}
RT
cat >"$work/crates/lpbench/src/points.rt" <<'RT'
//! Distances of drawn points and of instances, by rows.
use anyhow::{Result, bail};
use ports::{Desk, FileDesk, Inlet};
use std::alloc::Global;
use tspinst::{Instance, read};

fn next(state: u64) -> u64 {
    state
        .wrapping_mul(6_364_136_223_846_793_005)
        .wrapping_add(1_442_695_040_888_963_407)
}

pub fn drawn(alloc: Global, n: u32) -> Result<Vec<u32>> {
    let mut points: Vec<(u64, u64)> = Vec::new(alloc);
    let mut state: u64 = 3;
    for _ in 0..n {
        state = next(state);
        let x = state >> 50;
        state = next(state);
        points.push((x, state >> 50))?;
    }
    let mut v = Vec::new(alloc);
    for (x, y) in &points {
        for (p, q) in &points {
            let dx = x.abs_diff(*p);
            let dy = y.abs_diff(*q);
            let square = dx.wrapping_mul(dx).wrapping_add(dy.wrapping_mul(dy));
            v.push((square.isqrt() & 0x3fff_ffff) as u32)?;
        }
    }
    Ok(v)
}

fn of_instance(alloc: Global, instance: &Instance) -> Result<Vec<u32>> {
    let mut v = Vec::new(alloc);
    for a in 0..instance.n() {
        for b in 0..instance.n() {
            v.push(instance.d(a, b))?;
        }
    }
    Ok(v)
}

pub fn of_file(rt: HostRuntime, path: &str) -> Result<(u32, Vec<u32>)> {
    let alloc = rt.alloc();
    let mut desk = FileDesk::new(rt);
    if desk.bind_in(Inlet::Instance, path).is_err() {
        bail!("not opened");
    }
    match read(alloc, &mut desk) {
        Ok(instance) => Ok((instance.n(), of_instance(alloc, &instance)?)),
        Err(_) => bail!("not read"),
    }
}
RT
cat >"$work/crates/lpbench/src/main.rt" <<'RT'
//! lpbench N, lpbench INSTANCE: the degree program of N drawn points, or of an instance, with ten near pairs a city, then its
//! subtour rows. Prints the cities, rows and columns; in microseconds the first solve, the second one with twenty subtour rows
//! more, all solves, and one with nothing new; the rounds; how many answers were rough; and the value.
#![tactic(auto)]

mod cuts;
mod points;

use anyhow::{Result, bail};
use cyc::CitySet;
use simplex::{Lp, LpAnswer, Row, Sense};
use std::alloc::Global;
use std::env;
use std::time::CpuClock;

fn put_set(alloc: Global, lp: &mut Lp, sense: Sense, cities: Vec<u32>) -> Result<()> {
    let n = lp.n();
    let mut sets = Vec::new(alloc);
    sets.push(CitySet::new(alloc, n, cities)?)?;
    if sets.len() <= 4096 && lp.rows().len() < 4_194_304 {
        lp.add_row(Row {
            sense,
            rhs: 2,
            sets,
        })?;
    }
    Ok(())
}

fn put_col(lp: &mut Lp, u: u32, v: u32, cost: u32) -> Result<u32> {
    if u < v && v < lp.n() && !lp.has_col(u, v) {
        lp.add_col(u, v, cost, false)?;
        return Ok(1);
    }
    Ok(0)
}

fn start(alloc: Global, n: u32, d: &[u32]) -> Result<Lp> {
    if n < 3 || n > 2000 {
        bail!("size");
    }
    let mut lp = Lp::new(alloc, n, Vec::new(alloc))?;
    for city in 0..n {
        let mut one = Vec::new(alloc);
        one.push(city)?;
        put_set(alloc, &mut lp, Sense::Eq, one)?;
    }
    let mut best: Vec<(u32, u32)> = Vec::new(alloc);
    for (a, row) in (0..n).zip(d.chunks_exact(n as usize)) {
        best.clear();
        for (b, cost) in (0..n).zip(row) {
            if a != b {
                best.push((*cost, b))?;
            }
        }
        best.sort_unstable();
        for (cost, b) in best.iter().take(10) {
            put_col(&mut lp, a.min(*b), a.max(*b), *cost)?;
        }
    }
    Ok(lp)
}

fn values(alloc: Global, lp: &Lp) -> Result<Vec<u64>> {
    let mut xs = Vec::new(alloc);
    if let Some(LpAnswer::Solved { x, .. }) | Some(LpAnswer::Rough { x, .. }) = lp.last() {
        for entry in x.entries() {
            xs.push(u64::from(entry.x))?;
        }
    }
    Ok(xs)
}

/// Pairs of negative reduced cost join, at most ten a city.
fn price(alloc: Global, lp: &mut Lp, d: &[u32]) -> Result<u32> {
    let n = lp.n();
    let mut found: Vec<(u32, u32, u32)> = Vec::new(alloc);
    {
        let Some(LpAnswer::Solved { duals, .. }) = lp.last() else {
            return Ok(0);
        };
        let mut marks: Vec<Vec<bool>> = Vec::new(alloc);
        for row in lp.rows().iter().skip(n as usize) {
            let mut inside = Vec::new(alloc);
            for city in 0..n {
                inside.push(row.sets.iter().any(|s| s.contains(city)))?;
            }
            marks.push(inside)?;
        }
        let mut rates: Vec<i128> = Vec::new(alloc);
        for city in 0..n {
            let mut rate = duals.get(city as usize).copied().unwrap_or(0);
            for (inside, y) in marks.iter().zip(duals.iter().skip(n as usize)) {
                if inside.get(city as usize).copied().unwrap_or(false) {
                    rate = rate.wrapping_add(*y);
                }
            }
            rates.push(rate)?;
        }
        let mut costs = d.iter();
        for (u, a) in (0..n).zip(&rates) {
            for (v, b) in (0..n).zip(&rates) {
                let cost = costs.next().copied().unwrap_or(0);
                let units = i128::from(cost).wrapping_mul(1_048_576);
                if u < v && units < a.wrapping_add(*b) {
                    let mut r = units;
                    for city in [u, v] {
                        r = r.wrapping_sub(duals.get(city as usize).copied().unwrap_or(0));
                    }
                    for (inside, y) in marks.iter().zip(duals.iter().skip(n as usize)) {
                        if inside.get(u as usize) != inside.get(v as usize) {
                            r = r.wrapping_sub(*y);
                        }
                    }
                    if r < -1024 {
                        found.push((u, v, cost))?;
                    }
                }
            }
        }
    }
    let mut added = 0u32;
    for (u, v, cost) in found {
        added = added.wrapping_add(put_col(lp, u, v, cost)?);
    }
    Ok(added)
}

/// The cost of the newest values, rounded down.
fn cost(lp: &Lp, xs: &[u64]) -> u128 {
    let mut units: u128 = 0;
    for (column, x) in lp.cols().iter().zip(xs) {
        units = units.wrapping_add(u128::from(column.cost).wrapping_mul(u128::from(*x)));
    }
    units >> 20
}

fn run(rt: HostRuntime, n: u32, d: &[u32]) -> Result<()> {
    let alloc = rt.alloc();
    let mut lp = start(alloc, n, d)?;
    let mut spent: u128 = 0;
    let mut times: Vec<u128> = Vec::new(alloc);
    let mut rough = 0u32;
    for round in 0..200u32 {
        let from = rt.thread_cpu_time()?;
        lp.solve(alloc, 100_000)?;
        let micros = rt.thread_cpu_time()?.saturating_sub(from).as_micros();
        spent = spent.wrapping_add(micros);
        times.push(micros)?;
        if !matches!(lp.last(), Some(LpAnswer::Solved { .. })) {
            rough = rough.wrapping_add(1);
        }
        let xs = values(alloc, &lp)?;
        let mut sets = cuts::find(alloc, n, lp.cols(), &xs)?;
        let found = sets.len();
        let mut priced = 0;
        if found == 0 {
            priced = price(alloc, &mut lp, d)?;
        }
        if round == 0 {
            sets.truncate(20);
        }
        for cities in sets {
            put_set(alloc, &mut lp, Sense::AtLeast, cities)?;
        }
        if found == 0 && priced == 0 {
            break;
        }
    }
    let from = rt.thread_cpu_time()?;
    lp.solve(alloc, 100_000)?;
    let idle = rt.thread_cpu_time()?.saturating_sub(from).as_micros();
    let xs = values(alloc, &lp)?;
    let value = cost(&lp, &xs);
    let rounds = lp.rounds();
    let (rows, cols) = (lp.rows().len(), lp.cols().len());
    let first = times.first().copied().unwrap_or(0);
    let second = times.get(1).copied().unwrap_or(0);
    println!(rt; "{n} {rows} {cols} {first} {second} {spent} {idle} {rounds} {rough} {value}")?;
    Ok(())
}

fn main(rt: HostRuntime) -> Result<()> {
    let mut args = env::args(&rt)?;
    let _program = args.next();
    let Some(word) = args.next() else {
        bail!("no number and no instance");
    };
    let (n, d) = match word.parse::<u32>() {
        Ok(n) => (n, points::drawn(rt.alloc(), n)?),
        Err(_) => points::of_file(rt.clone()?, word.as_str())?,
    };
    run(rt, n, &d)
}
RT
echo "building .." >&2
(cd "$work/crates/lpbench" && rt fmt >/dev/null 2>&1; rt run -- 10 >"$work/log" 2>&1 || true)
program=$work/crates/lpbench/out/lpbench
[ -x "$program" ] || { cat "$work/log" >&2; exit 1; }
columns='%-14s %5s %6s %7s %10s %10s %10s %10s %7s %6s %10s\n'
printf "$columns" what n rows cols 'first (us)' '+20 (us)' 'all (us)' 'idle (us)' rounds rough value
if [ $# -eq 0 ]; then set -- 100 200 500 1000 2000 "$top"/../shared/instances/*.tsp; fi
for what; do
    printf "$columns" "$(basename "$what" .tsp)" $("$program" "$what")
done
