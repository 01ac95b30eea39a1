#!/usr/bin/env bash
# Times the writing of two bodies beside a plain C program that writes as many lines of the same form: that of a search of 200
# points with the whole budget, whose lines are short, and that of a tree of 1,999 nodes at n = 2000 whose 1,000 closed leaves
# have 2,000 city duals and 50 cuts each. Outside the gate. Prints a table; figures go into docs/PERFORMANCE.md.
#
#   bench/write.sh
#   RUN='taskset -c 3' bench/write.sh    both on one core
set -eu
top=$(cd "$(dirname "$0")/.." && pwd)
. "$top/bench/workspace.sh"
workspace writebench 'tspdef cyc distx tspinst neigh linkern cutform cutpool branchx pricer lpcheck simplex treebook leasebook tournament bossx pathtour opening worker tspround certform anyhow'
cat >"$work/crates/writebench/src/main.rt" <<'RT'
//! writebench: times the writing of two bodies. Prints for each its name, its bytes and the best time in microseconds.
#![tactic(auto)]

use anyhow::{Result, bail};
use bossx::Boss;
use branchx::Branch;
use certform::body;
use cutform::Cut;
use cutpool::NoCuts;
use cyc::{CitySet, Tour};
use distx::{Kind, Point};
use opening::{Opening, find_opening};
use ports::OpenGate;
use pricer::{Closing, Fit};
use std::alloc::Global;
use std::time::Instant;
use treebook::{State, Tree};
use tspinst::{Instance, from_points};
use tspround::{alone, nothing_is_split_at_the_start};
use worker::PlainWorker;

const N: u32 = 2000;

/// The next pseudo-random number.
fn next(state: u64) -> u64 {
    state
        .wrapping_mul(6_364_136_223_846_793_005)
        .wrapping_add(1_442_695_040_888_963_407)
}

/// So many pseudo-random points.
fn instance(alloc: Global, n: u32) -> Result<Instance> {
    let mut points = Vec::new(alloc);
    let mut state = 1u64;
    for _ in 0..n {
        state = next(state);
        let x = (state >> 44) as i32;
        state = next(state);
        let y = (state >> 44) as i32;
        points.push(Point::new(x & 0xf_ffff, y & 0xf_ffff))?;
    }
    if points.len() < 3 || points.len() > 2000 {
        bail!("points");
    }
    Ok(from_points(alloc, Kind::Euc, &points)?)
}

/// A subtour cut of 50 cities, of which this is the first.
fn cut(alloc: Global, first: u32) -> Result<Cut> {
    let mut cities = Vec::new(alloc);
    for c in 0..50u32 {
        cities.push((first & 0x3ff) + c)?;
    }
    let Ok(set) = CitySet::new(alloc, N, cities) else { bail!("set") };
    let Ok(cut) = Cut::subtour(alloc, set) else { bail!("cut") };
    Ok(cut)
}

/// A closing of long city duals and 50 cuts.
fn closing(alloc: Global, first: u32) -> Result<Closing> {
    let mut city = Vec::new(alloc);
    for k in 0..N {
        city.push(10_000_000_000 + i64::from(k))?;
    }
    let mut cuts = Vec::new(alloc);
    for k in 0..50u32 {
        let from = (first & 0x3f) + k;
        cuts.push((cut(alloc, from)?, 1_000_000u64))?;
    }
    Ok(Closing::new(city, cuts, Vec::new(alloc)))
}

/// Splits a node by whether city 0 and v are joined.
fn split(alloc: Global, tree: &mut Tree, node: u32, v: u32) -> Result<()> {
    if tree.nodes() >= 100_000 || node >= tree.nodes() || tree.n() != N || v == 0 || v >= N {
        bail!("no such node or pair");
    }
    tree.reserve(alloc, 2)?;
    let State::Open = tree.state(node) else { bail!("not open") };
    if tree.decided_at(node, 0, v) {
        bail!("decided");
    }
    tree.split(node, Branch::Edge(0, v));
    Ok(())
}

fn close(instance: &Instance, tree: &mut Tree, node: u32, closing: Closing) -> Result<()> {
    if node >= tree.nodes() || instance.n() != tree.n() {
        bail!("no such node");
    }
    let State::Open = tree.state(node) else { bail!("not open") };
    let Fit::Fits = tree.fits_at(instance, node, &closing) else { bail!("a misfit") };
    tree.close(node, closing);
    Ok(())
}

/// A chain of 999 splits whose 1,000 leaves are closed.
fn grown(alloc: Global, instance: &Instance) -> Result<Tree> {
    let mut tree = Tree::new(alloc, N)?;
    for k in 0..999u32 {
        split(alloc, &mut tree, k + k, k + 1)?;
    }
    for k in 0..999u32 {
        close(instance, &mut tree, k + k + 1, closing(alloc, k)?)?;
    }
    close(instance, &mut tree, 1998, closing(alloc, 999)?)?;
    Ok(tree)
}

/// The bytes of a body, and the best of ten times of its writing.
fn time(rt: &HostRuntime, instance: &Instance, tour: &Tour, tree: &Tree) -> Result<(usize, u128)> {
    if tour.n() != instance.n() || tree.n() != instance.n() || tree.nodes() > 1_048_576 {
        bail!("cities");
    }
    let length = instance.length(tour);
    let mut best = u128::MAX;
    let mut bytes = 0;
    for _ in 0..10 {
        let start = Instant::now(rt)?;
        let text = body(rt.alloc(), instance, tour, tree, length)?;
        best = best.min(start.elapsed(rt)?.as_micros());
        bytes = text.len();
    }
    Ok((bytes, best))
}

fn searched(rt: &HostRuntime) -> Result<()> {
    let instance = instance(rt.alloc(), 200)?;
    nothing_is_split_at_the_start::<PlainWorker>();
    let Opening { near, tour } = find_opening(rt.alloc(), &instance, 1)?;
    let tree = Tree::with_fixed(rt.alloc(), instance.n(), instance.fixed())?;
    let boss = Boss::start(rt.alloc(), &instance, tree, tour, 65536, 1, 0)?;
    let boss = alone(
        rt.alloc(), boss, &mut NoCuts, &instance, &near, &PlainWorker, &OpenGate, 65536, 1, 0,
    )?;
    let (tour, tree) = boss.snapshot();
    let (bytes, best) = time(rt, &instance, tour, tree)?;
    println!(rt; "search {bytes} {best}")?;
    Ok(())
}

fn priced(rt: &HostRuntime) -> Result<()> {
    let instance = instance(rt.alloc(), N)?;
    let tour = Tour::identity(rt.alloc(), N)?;
    let tree = grown(rt.alloc(), &instance)?;
    let (bytes, best) = time(rt, &instance, &tour, &tree)?;
    println!(rt; "duals {bytes} {best}")?;
    Ok(())
}

fn main(rt: HostRuntime) -> Result<()> {
    searched(&rt)?;
    priced(&rt)
}
RT
cat >"$work/plain.c" <<'C'
#include <stdint.h>
#include <stdio.h>
#include <stdlib.h>
#include <string.h>
#include <time.h>
static char *text;
static size_t size, room;
static double now(void) { struct timespec t; clock_gettime(CLOCK_MONOTONIC, &t); return t.tv_sec * 1e6 + t.tv_nsec / 1e3; }
static void need(size_t k) { if (room - size < k) { room = room < k ? 2 * k : 2 * room; text = realloc(text, room); } }
static void put(char c) { need(1); text[size++] = c; }
static void number(uint64_t x) {
    char digits[20]; int k = 20;
    do digits[--k] = '0' + x % 10; while (x /= 10);
    need(21 - k); text[size++] = ' '; memcpy(text + size, digits + k, 20 - k); size += 20 - k;
}
static void searched(size_t bytes) { for (int k = 0; size < bytes; k++) { put('E'); number(1 + k % 198); number(200); put('\n'); put('O'); put('\n'); } }
static void priced(size_t bytes) {
    for (int leaf = 0; size < bytes; leaf++) {
        put('E'); number(1); number(leaf + 2); put('\n');
        put('L'); number(2000); number(50); number(0); put('\n');
        for (int k = 0; k < 2000; k++) { put('P'); number(k + 1); number(10000000000 + k); put('\n'); }
        for (int k = 0; k < 50; k++) { put('Y'); number((leaf & 63) + k + 1); number(1000000); put('\n'); }
    }
}
int main(int argc, char **argv) {
    for (int which = 1; which < argc; which++) {
        double best = 1e18;
        for (int t = 0; t < 10; t++) {
            free(text); text = NULL; size = room = 0;
            double start = now();
            (which == 1 ? searched : priced)(strtoull(argv[which], NULL, 10));
            double spent = now() - start;
            if (spent < best) best = spent;
        }
        printf("%zu %.0f\n", size, best);
    }
}
C
gcc -O3 -march=x86-64-v2 -o "$work/plain" "$work/plain.c"
echo "building .." >&2
(cd "$work/crates/writebench" && rt fmt >/dev/null 2>&1; rt run >"$work/log" 2>&1 || true)
program=$work/crates/writebench/out/writebench
[ -x "$program" ] || { cat "$work/log" >&2; exit 1; }
${RUN:-} "$program" >"$work/ours"
${RUN:-} "$work/plain" $(awk '{ print $2 }' "$work/ours") >"$work/theirs"
printf '%-8s %10s %12s %12s %8s %10s\n' tree bytes 'ours (us)' 'plain C (us)' ratio MB/s
while read -r name bytes ours <&3 && read -r written plain <&4; do
    printf '%-8s %10s %12s %12s %8s %10s\n' "$name" "$bytes" "$ours" "$plain" "$(awk -v a="$ours" -v b="$plain" -v x="$bytes" -v y="$written" 'BEGIN { printf "%.2f", (a / x) / (b / y) }')" "$(awk -v a="$ours" -v x="$bytes" 'BEGIN { printf "%.0f", x / a }')"
done 3<"$work/ours" 4<"$work/theirs"
