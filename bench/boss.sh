#!/usr/bin/env bash
# Times the boss: its start with room for the whole budget, and pairs of an ask and a report, each a split, until the budget is settled.
# Outside the gate. Prints a table; figures go into docs/PERFORMANCE.md.
#
#   bench/boss.sh
set -eu
top=$(cd "$(dirname "$0")/.." && pwd)
. "$top/bench/workspace.sh"
workspace bossbench 'tspdef cyc distx tspinst neigh linkern cutform branchx pricer treebook leasebook tournament bossx opening anyhow'
cat >"$work/crates/bossbench/src/main.rt" <<'RT'
//! bossbench: the best of 16 starts, and the time of so many pairs of an ask and a report, in microseconds.
#![tactic(auto)]

use anyhow::{Result, bail};
use bossx::{Asked, Boss, Reported};
use branchx::Branch;
use distx::{Kind, Point};
use opening::{Opening, find_opening};
use pricer::Report;
use std::alloc::Global;
use std::time::Instant;
use treebook::Tree;
use tspinst::{Instance, from_points};

/// The next pseudo-random number.
fn next(state: u64) -> u64 {
    state
        .wrapping_mul(6_364_136_223_846_793_005)
        .wrapping_add(1_442_695_040_888_963_407)
}

fn instance(alloc: Global) -> Result<Instance> {
    let mut points = Vec::new(alloc);
    let mut state = 1u64;
    for _ in 0..200 {
        state = next(state);
        let x = (state >> 44) as i32;
        state = next(state);
        let y = (state >> 44) as i32;
        points.push(Point::new(x & 0xf_ffff, y & 0xf_ffff))?;
    }
    if points.len() < 3 || points.len() > 2000 {
        bail!("points");
    }
    Ok(from_points(alloc, Kind::Euc, &points)?)
}

/// Asks and splits until nothing is lent; how many reports were taken. The node of least number is lent, so the tree grows by levels, and each
/// level is split by a pair of its own.
fn asks_and_reports(boss: &mut Boss) -> u32 {
    let mut taken = 0u32;
    for _ in 0..65536u32 {
        if boss.grunts() < 1 {
            return taken;
        }
        let Asked::Leased { lease, node, .. } = boss.ask(1) else {
            return taken;
        };
        let level = 31 - (node.saturating_add(1) | 1).leading_zeros().min(31);
        let branch = Branch::Edge(2 * level, 2 * level + 1);
        if boss.report(lease, Report::Split(branch)) == Reported::Taken {
            taken = taken.saturating_add(1);
        }
    }
    taken
}

fn main(rt: HostRuntime) -> Result<()> {
    let alloc = rt.alloc();
    let instance = instance(alloc)?;
    let mut best = u128::MAX;
    let mut spent = 0u128;
    let mut pairs = 0u64;
    for _ in 0..16 {
        let Opening { tour, .. } = find_opening(alloc, &instance, 1)?;
        let tree = Tree::with_fixed(alloc, instance.n(), instance.fixed())?;
        let start = Instant::now(&rt)?;
        let mut boss = Boss::start(alloc, &instance, tree, tour, 65536, 1, 0)?;
        best = best.min(start.elapsed(&rt)?.as_micros());
        let start = Instant::now(&rt)?;
        let taken = asks_and_reports(&mut boss);
        spent = spent.saturating_add(start.elapsed(&rt)?.as_micros());
        pairs = pairs.saturating_add(u64::from(taken));
    }
    println!(rt; "{best} {pairs} {spent}")?;
    Ok(())
}
RT
echo "building .." >&2
(cd "$work/crates/bossbench" && rt fmt >/dev/null 2>&1; rt run >"$work/log" 2>&1 || true)
program=$work/crates/bossbench/out/bossbench
[ -x "$program" ] || { tail -40 "$work/log" >&2; exit 1; }
read -r start pairs spent < <("$program")
printf 'start at budget 65536, the best of 16:  %s us\n' "$start"
printf 'pairs of an ask and a report:           %s in %s us, %s ns each\n' "$pairs" "$spent" "$(awk -v a="$spent" -v b="$pairs" 'BEGIN { printf "%.0f", 1000 * a / b }')"
