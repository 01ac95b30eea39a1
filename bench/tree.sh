#!/usr/bin/env bash
# Times the tree: the splits of a chain of nodes down to depth 1,999, and the path of nodes at several depths. Outside the
# gate. Prints a table; figures go into docs/PERFORMANCE.md.
#
#   bench/tree.sh
#   RUN='taskset -c 3' bench/tree.sh    on one core
set -eu
top=$(cd "$(dirname "$0")/.." && pwd)
. "$top/bench/workspace.sh"
workspace treebench 'treebook branchx anyhow'
cat >"$work/crates/treebench/src/main.rt" <<'RT'
//! treebench: times splits and paths in a chain of nodes. Prints a line for each: its name, the depth, and the best time
//! in nanoseconds.
#![tactic(auto)]

use anyhow::{Result, bail};
use branchx::Branch;
use std::time::Instant;
use treebook::{State, Tree};

const N: u32 = 2000;

/// Splits the newest node by whether city 0 and v are joined. How long that took, with one look at the clock.
fn deepen(rt: &HostRuntime, tree: &mut Tree, v: u32) -> Result<u128> {
    if tree.nodes() >= 100_000 || tree.n() != N || v == 0 || v >= N {
        bail!("too deep");
    }
    tree.reserve(rt.alloc(), 2)?;
    let Some(node) = tree.nodes().checked_sub(1) else { bail!("no node") };
    let State::Open = tree.state(node) else { bail!("not open") };
    if tree.decided_at(node, 0, v) {
        bail!("decided");
    }
    let start = Instant::now(rt)?;
    tree.split(node, Branch::Edge(0, v));
    Ok(start.elapsed(rt)?.as_nanos())
}

/// The best of a hundred looks at the clock.
fn clock(rt: &HostRuntime) -> Result<u128> {
    let mut best = u128::MAX;
    for _ in 0..100 {
        let start = Instant::now(rt)?;
        best = best.min(start.elapsed(rt)?.as_nanos());
    }
    Ok(best)
}

/// The best of ten times of the path of the newest node.
fn path_time(rt: &HostRuntime, tree: &Tree) -> Result<u128> {
    let mut best = u128::MAX;
    let Some(node) = tree.nodes().checked_sub(1) else { bail!("no node") };
    for _ in 0..10 {
        let start = Instant::now(rt)?;
        let path = tree.path_of(rt.alloc(), node)?;
        best = best.min(start.elapsed(rt)?.as_nanos());
        if path.conditions().is_empty() {
            bail!("no conditions");
        }
    }
    Ok(best)
}

fn main(rt: HostRuntime) -> Result<()> {
    let mut tree = Tree::new(rt.alloc(), N)?;
    println!(rt; "clock - {}", clock(&rt)?)?;
    let mut best = u128::MAX;
    for v in 1..N {
        best = best.min(deepen(&rt, &mut tree, v)?);
        if v == 10 || v == 100 || v == 1000 || v == 1999 {
            println!(rt; "split {v} {best}")?;
            println!(rt; "path_of {v} {}", path_time(&rt, &tree)?)?;
            best = u128::MAX;
        }
    }
    Ok(())
}
RT
echo "building .." >&2
(cd "$work/crates/treebench" && rt fmt >/dev/null 2>&1; rt run >"$work/log" 2>&1 || true)
program=$work/crates/treebench/out/treebench
[ -x "$program" ] || { cat "$work/log" >&2; exit 1; }
printf '%-10s %8s %12s\n' call depth 'best (ns)'
${RUN:-} "$program" | while read -r call depth best; do printf '%-10s %8s %12s\n' "$call" "$depth" "$best"; done
