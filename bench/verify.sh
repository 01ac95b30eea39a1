#!/usr/bin/env bash
# Times the verifier on proof texts of its own: leaves of 100 to 2,000 cities beside a plain C pass over the pairs, 1,000
# leaves over 200 cities, a text like that of a search, and lines that no leaf prices. Times are processor times of the program, less those of the same
# instance with a text that is refused at line 1. Outside the gate. Prints a table; figures go into docs/PERFORMANCE.md.
#
#   bench/verify.sh              with crates/tspverify/out/tspverify, which `rt ci` leaves there
#   bench/verify.sh PROGRAM      with another build
#   TIMES=10 bench/verify.sh     the best of ten runs of each; five if left out
set -eu
top=$(cd "$(dirname "$0")/.." && pwd)
program=${1:-$top/crates/tspverify/out/tspverify}
[ -x "$program" ] || { echo "no program $program: rt ci leaves it there" >&2; exit 1; }
work=$(mktemp -d)
trap 'rm -rf "$work"' EXIT
cat >"$work/plain.c" <<'C'
#include <stdint.h>
#include <stdio.h>
#include <stdlib.h>
#include <time.h>
static double now(void) { struct timespec t; clock_gettime(CLOCK_MONOTONIC, &t); return t.tv_sec * 1e9 + t.tv_nsec; }
static int64_t pass(int n, const uint32_t *d, const int64_t *q) {
    int64_t total = 0;
    for (int v = 0; v < n; v++) {
        const uint32_t *row = d + (size_t)v * n;
        int64_t sum = 0;
        for (int u = 0; u < v; u++) { int64_t r = ((int64_t)row[u] << 20) - q[u] - q[v]; sum += r < 0 ? r : 0; }
        total += sum;
    }
    return total;
}
int main(int argc, char **argv) {
    int n = atoi(argv[1]), times = atoi(argv[2]);
    uint32_t *d = malloc(4l * n * n);
    int64_t *q = malloc(8l * n), seen = 0;
    for (long k = 0; k < (long)n * n; k++) d[k] = k * 2654435761u >> 12;
    for (int k = 0; k < n; k++) q[k] = 100000000000ll + k;
    double best = 1e18;
    for (int t = 0; t < times; t++) { double s = now(); q[0] += pass(n, d, q) & 1; double e = now() - s; if (e < best) best = e; }
    for (int k = 0; k < n; k++) seen += q[k];
    printf("%d %.0f %lld\n", n, best, (long long)seen);
}
C
gcc -O3 -march=x86-64-v2 -o "$work/plain" "$work/plain.c"
cat >"$work/bench.py" <<'PY'
import os, random, resource, subprocess, sys
program, out, times = sys.argv[1], sys.argv[2], int(sys.argv[3])
draw = random.Random(1)
SCALE = 1 << 20

def instance(n):
    """Writes an instance whose pairs cost what their ends do, and more off the tour 1 .. n. Gives what each city costs."""
    cost = [draw.randrange(1000, 100000) for _ in range(n)]
    with open(f'{out}/{n}.tsp', 'w') as f:
        f.write(f'NAME : b\nTYPE : TSP\nDIMENSION : {n}\nEDGE_WEIGHT_TYPE : EXPLICIT\n')
        f.write('EDGE_WEIGHT_FORMAT : UPPER_ROW\nEDGE_WEIGHT_SECTION\n')
        for i in range(n - 1):
            more = draw.choices(range(1, 100000), k=n - 1 - i)
            more[0] = 0
            if i == 0: more[-1] = 0
            f.write(' '.join(str(cost[i] + c + m) for c, m in zip(cost[i + 1:], more)) + '\n')
    return cost

def run_of(n, size):
    start = draw.randrange(n - size)
    return range(start + 1, start + size + 1)

def spell(word, cities): return f'{word} {len(cities)} {" ".join(map(str, cities))}\n'

def write(name, cost, cuts, tree):
    n = len(cost)
    with open(f'{out}/{name}.txt', 'w') as f:
        f.write(f'TSPCERT 1\nN {n}\nLENGTH {2 * sum(cost)}\nTOUR {" ".join(map(str, range(1, n + 1)))}\nCUTS {len(cuts)}\n')
        f.writelines(cuts)
        f.writelines(tree)

def leaf(cost, cuts=0):
    """A leaf that the cities' costs close. Duals of up to SCALE units of runs of the tour leave the bound as it is."""
    cities = ''.join(f'P {k + 1} {c * SCALE}\n' for k, c in enumerate(cost))
    return f'L {len(cost)} {cuts} 0\n' + cities + ''.join(f'Y {k + 1} 1000\n' for k in range(cuts))

def pairs(n, k): return draw.sample([(u, v) for u in range(1, n) for v in range(u + 1, n + 1)], k)

def chain(splits, closed):
    """Splits by pairs, where each first child is a leaf."""
    for u, v in splits: yield f'E {u} {v}\n' + closed
    yield closed

def full(splits, closed):
    """A full tree, split at each depth by the same pair."""
    if not splits:
        yield closed
        return
    yield f'E {splits[0][0]} {splits[0][1]}\n'
    yield from full(splits[1:], closed)
    yield from full(splits[1:], closed)

def searched(cost, cuts):
    """A leaf like those of a search: 55 of the cuts, each with a dual of its own."""
    cities = ''.join(f'P {k + 1} {c * SCALE}\n' for k, c in enumerate(cost))
    named = sorted(draw.sample(range(1, cuts + 1), 55))
    return f'L {len(cost)} {len(named)} 0\n' + cities + ''.join(f'Y {k} {draw.randrange(1, 1000)}\n' for k in named)

def grown(splits, leaf_of):
    """A full tree, split at each depth by the same pair, of which each leaf is made anew."""
    if not splits:
        yield leaf_of()
        return
    yield f'E {splits[0][0]} {splits[0][1]}\n'
    yield from grown(splits[1:], leaf_of)
    yield from grown(splits[1:], leaf_of)

def comb():
    start = draw.randrange(1, 380)
    teeth = ''.join(spell('T', (start + 4 * k, start + 100 + k)) for k in range(5))
    return 'C 5\n' + spell('H', range(start, start + 20)) + teeth

def spent(n, name):
    """The best processor time, and what the program said."""
    best, said = 1e9, ''
    for _ in range(times):
        before = resource.getrusage(resource.RUSAGE_CHILDREN)
        said = subprocess.run([program, f'{out}/{n}.tsp', f'{out}/{name}.txt'], capture_output=True, text=True).stdout
        after = resource.getrusage(resource.RUSAGE_CHILDREN)
        best = min(best, after.ru_utime + after.ru_stime - before.ru_utime - before.ru_stime)
    return best, said.strip()

cost = {n: instance(n) for n in (5, 100, 150, 200, 500, 2000)}
open(f'{out}/none.txt', 'w').write('X\n')
none = {n: spent(n, 'none')[0] for n in cost}
failed = False

def row(name, n, cuts, tree, leaves, want):
    global failed
    write(name, cost[n], cuts, tree)
    best, said = spent(n, name)
    own, size = best - none[n], os.path.getsize(f'{out}/{name}.txt')
    print(f'{name:22} {n:5} {size:9} {own * 1e3:10.2f} {size / own / 1e6:8.1f}', end='')
    if leaves:
        plain = float(subprocess.run([f'{out}/plain', str(n), '200'], capture_output=True, text=True).stdout.split()[1])
        print(f' {own / leaves * 1e6:10.1f} {plain / 1e3:10.1f} {own / leaves * 1e9 / plain:7.2f}', end='')
    print(flush=True)
    if said.split()[:2] != want.split():
        print(f'  it said: {said}')
        failed = True

def verified(n): return f'VERIFIED {2 * sum(cost[n])}'

print(f'{"text":22} {"n":>5} {"bytes":>9} {"ms":>10} {"MB/s":>8} {"us a leaf":>10} {"plain C":>10} {"ratio":>7}')
for n, depth in (100, 10), (200, 10), (500, 8), (2000, 5):
    row(f'{1 << depth} leaves', n, [], full(pairs(n, depth), leaf(cost[n])), 1 << depth, verified(n))
row('chain of 1000 leaves', 200, [], chain(pairs(200, 999), leaf(cost[200])), 1000, verified(200))
cuts = [spell('S', run_of(200, 10)) for _ in range(100)]
row('256 leaves, 100 cuts', 200, cuts, full(pairs(200, 8), leaf(cost[200], 100)), 256, verified(200))
cuts = [spell('S', run_of(150, draw.choice((3, 4, 5, 6, 8, 10, 12, 15, 20, 30, 40)))) for _ in range(400)]
row('as of a search', 150, cuts, grown(pairs(150, 11), lambda: searched(cost[150], 400)), 2048, verified(150))
row('cuts of 100 cities', 500, [spell('S', run_of(500, 100)) for _ in range(20000)], ['O\n'], 0, 'REFUSED 8')
row('cuts of 10 cities', 500, [spell('S', run_of(500, 10)) for _ in range(100000)], ['O\n'], 0, 'REFUSED 8')
row('combs', 500, [comb() for _ in range(30000)], ['O\n'], 0, 'REFUSED 8')
row('splits by 50 cities', 500, [], [spell('K', run_of(500, 50)) for _ in range(20000)] + ['O\n'], 0, 'REFUSED 8')
row('splits by one city', 5, [], ['K 1 1\n'] * 200000 + ['O\n'], 0, 'REFUSED 8')
row('splits by pairs', 500, [], [f'E {u} {v}\n' for u, v in pairs(500, 5000)] + ['O\n'], 0, 'REFUSED 8')
row('a long chain', 500, [], [f'E {u} {v}\n' for u in range(1, 400) for v in range(u + 1, u + 100)] + ['O\n'], 0, 'REFUSED 8')
sys.exit(failed)
PY
python3 "$work/bench.py" "$program" "$work" "${TIMES:-5}"
