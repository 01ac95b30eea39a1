#!/usr/bin/env bash
# Counts what the search does on the shared instances of at most MOST cities whose optimum is known: nodes, rounds of linear programs and their pivots,
# cuts that were added by their kinds, and columns; and times it. The counts are those that a search returns (`worker::Effort`).
# Outside the gate. Prints a table; figures go into docs/PERFORMANCE.md.
#
#   bench/effort.sh [SHARED] [MOST] [BUDGET]     (default ../shared 200 65536); BOX=NoCuts works without a pool of cuts
set -eu
top=$(cd "$(dirname "$0")/.." && pwd)
shared=${1:-$top/../shared}
most=${2:-200}
budget=${3:-65536}
box=${BOX:-CutPool}
[ "$box" = NoCuts ] && shared_box='NoCuts' || shared_box='CutPool::new(rt.alloc(), instance.n())'
. "$top/bench/workspace.sh"
workspace effort 'ports tspdef distx cyc tspinst neigh linkern cutform cutpool branchx pricer lpcheck simplex treebook leasebook tournament bossx pathtour opening worker grunt tspround anyhow'
cat >"$work/crates/effort/src/main.rt" <<'RT'
//! effort INSTANCE BUDGET: cities, nodes settled and left open, the best length, rounds, pivots, rows of subtour cuts, of combs with pairs
//! as teeth, of other combs, columns, the most rounds of a node, and milliseconds of the processor.
#![tactic(auto)]

use anyhow::{Result, anyhow, bail};
use bossx::Boss;
use cutpool::KIND;
use grunt::LpWorker;
use opening::{Opening, find_opening};
use ports::{Desk, FileDesk, Inlet, OpenGate};
use std::env;
use std::time::CpuClock;
use treebook::Tree;
use tspinst::{ReadError, read};
use tspround::{Effort, alone_counted, nothing_is_split_at_the_start};

fn main(rt: HostRuntime) -> Result<()> {
    let mut words = Vec::new(rt.alloc());
    for word in env::args(&rt)? {
        words.push(word)?;
    }
    let (Some(path), Some(budget)) = (words.get(1), words.get(2)) else {
        bail!("two words");
    };
    let budget = budget.as_str().parse::<u32>().map_err(|_| anyhow!("budget"))?;
    if budget > 65536 {
        bail!("budget");
    }
    let mut desk = FileDesk::new(rt.clone()?);
    if desk.bind_in(Inlet::Instance, path.as_str()).is_err() {
        bail!("not opened");
    }
    let instance = match read(rt.alloc(), &mut desk) {
        Ok(instance) => instance,
        Err(ReadError::Refused(_)) => bail!("refused"),
        Err(ReadError::Failed) => bail!("failed"),
        Err(ReadError::NoMemory) => bail!("no memory"),
    };
    let start = rt.thread_cpu_time()?;
    nothing_is_split_at_the_start::<LpWorker>();
    let Opening { near, tour } = find_opening(rt.alloc(), &instance, 1)?;
    let tree = Tree::with_fixed(rt.alloc(), instance.n(), instance.fixed())?;
    let boss = Boss::start(rt.alloc(), &instance, tree, tour, budget, 1, 0)?;
    let mut shared = MADE;
    let worker = LpWorker::new(rt.alloc());
    let mut c = Effort::none();
    let boss = alone_counted(
        rt.alloc(), boss, &mut shared, &instance, &near, &worker, &OpenGate, budget, 1, 0, &mut c,
    )?;
    let end = rt.thread_cpu_time()?;
    let took = end.saturating_sub(start).as_millis();
    let (_, tree) = boss.snapshot();
    println!(rt;
        "{} {} {} {} {} {} {} {} {} {} {} {took}",
        instance.n(), boss.settled(), tree.open_nodes(), boss.best_length(),
        c.rounds, c.pivots, c.subtours, c.blossoms, c.combs, c.columns, c.most_rounds
    )?;
    Ok(())
}
RT
sed -i "s/KIND/$box/; s/MADE/$shared_box/" "$work/crates/effort/src/main.rt"
(cd "$work/crates/effort" && rt run -- "$shared/instances/none" 1 >"$work/log" 2>&1) || true
effort=$work/crates/effort/out/effort
[ -x "$effort" ] || { tail -30 "$work/log" >&2; exit 1; }
printf '%-16s %5s %6s %5s %10s %7s %8s %9s %9s %7s %8s %6s %8s\n' instance n nodes open length rounds pivots subtours blossoms combs columns most ms
while IFS=$'\t' read -r file n _; do
    [ "$n" -le "$most" ] || continue
    read -r n nodes open length rounds pivots subtours blossoms combs columns longest took < <("$effort" "$shared/instances/$file" "$budget")
    printf '%-16s %5s %6s %5s %10s %7s %8s %9s %9s %7s %8s %6s %8s\n' "$file" "$n" "$nodes" "$open" "$length" "$rounds" "$pivots" "$subtours" "$blossoms" "$combs" \
        "$columns" "$longest" "$took"
done < <(tail -n +2 "$shared/instances/optima.tsv" | awk -F'\t' '$4 != "-"' | sort -t"$(printf '\t')" -k2,2n)
