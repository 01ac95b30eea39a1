#!/usr/bin/env bash
# Times the bound of a closing at n = 2000, without cuts and with 100 cuts of 50 cities, beside a plain C loop of the same
# work in the same run. Outside the gate. Prints a table; figures go into docs/PERFORMANCE.md.
#
#   bench/bound.sh
#   RUN='taskset -c 3' bench/bound.sh    both on one core
set -eu
top=$(cd "$(dirname "$0")/.." && pwd)
. "$top/bench/workspace.sh"
workspace boundbench 'pricer branchx cutform cyc tspinst distx anyhow'
cat >"$work/crates/boundbench/src/main.rt" <<'RT'
//! boundbench: times the bound at n = 2000 with some cuts of 50 cities. Prints the cuts, the best of five times in
//! microseconds, and the bound.
#![tactic(auto)]

use anyhow::{Result, bail};
use branchx::Path;
use cutform::Cut;
use cyc::CitySet;
use distx::{Kind, Point};
use pricer::{Closing, Fit, bound, fits};
use std::alloc::Global;
use std::time::Instant;
use tspinst::{Instance, from_points};

const N: u32 = 2000;

/// The next of some numbers that look drawn.
fn next(state: u64) -> u64 {
    state
        .wrapping_mul(6_364_136_223_846_793_005)
        .wrapping_add(1_442_695_040_888_963_407)
}

fn instance(alloc: Global) -> Result<Instance> {
    let mut points = Vec::new(alloc);
    let mut state = 1u64;
    for _ in 0..N {
        state = next(state);
        let x = (state >> 44) as i32;
        state = next(state);
        let y = (state >> 44) as i32;
        points.push(Point::new(x & 0xf_ffff, y & 0xf_ffff))?;
    }
    if points.len() < 3 || points.len() > 2000 {
        bail!("points");
    }
    Ok(from_points(alloc, Kind::Euc, &points)?)
}

/// A closing of even city duals and so many subtour cuts of 50 cities.
fn closing(alloc: Global, cuts: u32) -> Result<Closing> {
    let mut city = Vec::new(alloc);
    for k in 0..N {
        city.push(10_000_000_000 + i64::from(k))?;
    }
    let mut list = Vec::new(alloc);
    for k in 0..cuts {
        let mut cities = Vec::new(alloc);
        for c in 0..50u32 {
            cities.push((k & 0xff) * 10 + c)?;
        }
        let Ok(set) = CitySet::new(alloc, N, cities) else { bail!("set") };
        let Ok(cut) = Cut::subtour(alloc, set) else { bail!("cut") };
        list.push((cut, 1_000_000u64))?;
    }
    Ok(Closing::new(city, list, Vec::new(alloc)))
}

fn main(rt: HostRuntime) -> Result<()> {
    let alloc = rt.alloc();
    let instance = instance(alloc)?;
    let path = Path::new(alloc, N);
    for cuts in [0, 100] {
        let closing = closing(alloc, cuts)?;
        if instance.n() != path.n() {
            bail!("cities");
        }
        let mut best = u128::MAX;
        let mut value = 0;
        for _ in 0..5 {
            let Fit::Fits = fits(&instance, &path, &closing) else { bail!("misfit") };
            let start = Instant::now(&rt)?;
            value = bound(&instance, &path, &closing);
            best = best.min(start.elapsed(&rt)?.as_micros());
        }
        println!(rt; "{cuts} {best} {value}")?;
    }
    Ok(())
}
RT
cat >"$work/plain.c" <<'C'
#include <stdint.h>
#include <stdio.h>
#include <stdlib.h>
#include <string.h>
#include <time.h>
#include <math.h>
enum { N = 2000 };
static uint32_t d[N * N];
static int64_t city[N], q[N];
static __int128 p[N], w[N];
static uint64_t state = 1;
static uint64_t next(void) { return state = state * 6364136223846793005ull + 1442695040888963407ull; }
static double now(void) { struct timespec t; clock_gettime(CLOCK_MONOTONIC, &t); return t.tv_sec * 1e6 + t.tv_nsec / 1e3; }
static __int128 bound(int cuts) {
    __int128 total = 0;
    for (int u = 0; u < N; u++) { p[u] = city[u]; total += 2 * (__int128)city[u]; }
    for (int k = 0; k < cuts; k++) { total += 2 * 1000000; for (int c = 0; c < 50; c++) p[k * 10 + c] += 1000000; }
    for (int u = 0; u < N; u++) q[u] = (int64_t)p[u];
    for (int v = 0; v < N; v++) {
        int shared = 0;
        for (int k = 0; k < cuts; k++) if (v >= k * 10 && v < k * 10 + 50) {
            if (!shared) { memset(w, 0, sizeof w); shared = 1; }
            for (int c = 0; c < 50; c++) w[k * 10 + c] += 1000000;
        }
        const uint32_t *row = d + v * N;
        if (shared) for (int u = 0; u < v; u++) { __int128 r = ((__int128)row[u] << 20) - p[u] - p[v] + 2 * w[u]; if (r < 0) total += r; }
        else {
            int64_t sum = 0;
            for (int u = 0; u < v; u++) { int64_t r = ((int64_t)row[u] << 20) - q[u] - q[v]; sum += r < 0 ? r : 0; }
            total += sum;
        }
    }
    return total;
}
int main(void) {
    static int64_t x[N], y[N];
    for (int i = 0; i < N; i++) { x[i] = (next() >> 44) & 0xfffff; y[i] = (next() >> 44) & 0xfffff; }
    for (int i = 0; i < N; i++) for (int j = 0; j < N; j++) {
        uint64_t s = (x[i]-x[j])*(x[i]-x[j]) + (y[i]-y[j])*(y[i]-y[j]), k = (uint64_t)sqrt((double)s);
        while (k * k > s) k--; while ((k + 1) * (k + 1) <= s) k++;
        d[i * N + j] = s <= k * k + k ? k : k + 1;
    }
    for (int k = 0; k < N; k++) city[k] = 10000000000ll + k;
    for (int cuts = 0; cuts <= 100; cuts += 100) {
        double best = 1e18; __int128 b = 0;
        for (int t = 0; t < 5; t++) { double s = now(); b = bound(cuts); double e = now() - s; if (e < best) best = e; }
        printf("%d %.0f %lld\n", cuts, best, (long long)b);
    }
}
C
gcc -O3 -march=x86-64-v2 -o "$work/plain" "$work/plain.c" -lm
echo "building .." >&2
(cd "$work/crates/boundbench" && rt fmt >/dev/null 2>&1; rt run >"$work/log" 2>&1 || true)
program=$work/crates/boundbench/out/boundbench
[ -x "$program" ] || { cat "$work/log" >&2; exit 1; }
${RUN:-} "$program" >"$work/ours"
${RUN:-} "$work/plain" >"$work/theirs"
failed=0
printf '%6s %12s %12s %8s %12s\n' cuts 'ours (us)' 'plain C (us)' ratio 'ns a pair'
while read -r cuts ours value <&3 && read -r _ plain same <&4; do
    printf '%6s %12s %12s %8s %12s\n' "$cuts" "$ours" "$plain" "$(awk -v a="$ours" -v b="$plain" 'BEGIN { printf "%.2f", a / b }')" "$(awk -v a="$ours" 'BEGIN { printf "%.2f", a * 1000 / (2000 * 1999 / 2) }')"
    [ "$value" = "$same" ] || { echo "the bounds differ: $value $same"; failed=1; }
done 3<"$work/ours" 4<"$work/theirs"
exit $failed
