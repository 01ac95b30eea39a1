#!/usr/bin/env python3
"""Instances with fixed edges through the built programs, outside the gate.

  bench/fixed.py drawn [COUNT] [SEED]     (default 200 1) COUNT pseudo-random instances of 6 to 9 cities with 1 to n fixed pairs
  bench/fixed.py real [SHARED]            kroA100, gr120 and r150-s1 with ten and with fifty fixed steps of a good tour, and with
                                          ten fixed pairs that no good tour has; beside each the time without fixed pairs

Drawn: each answer is compared with that of going through all tours that hold the fixed pairs, and each proof must be verified. Real:
each tour printed must hold the fixed pairs, and each proof must be verified. The exit status is 1 where anything differs.
"""
import itertools, os, random, subprocess, sys, tempfile, time

TOP = os.path.dirname(os.path.dirname(os.path.abspath(__file__)))


def program(name):
    built = f"{TOP}/crates/{name}/out/{name}"
    return built if os.access(built, os.X_OK) else f"{TOP}/bin/{name}"


def run(name, *words):
    ran = subprocess.run([program(name), *words], capture_output=True, text=True)
    return ran.returncode, ran.stdout.splitlines()


def fixable(draw, n, most):
    """Pairs of n cities that may be part of one tour: the first ones of a pseudo-random order that still may."""
    pairs, at, part = [], [0] * n, list(range(n))
    for u, v in draw.sample(list(itertools.combinations(range(n), 2)), n * (n - 1) // 2):
        if len(pairs) == most:
            break
        closes = part[u] == part[v]
        if at[u] < 2 and at[v] < 2 and (not closes or len(pairs) == n - 1):
            pairs.append((u, v))
            at[u] += 1
            at[v] += 1
            part = [part[u] if p == part[v] else p for p in part]
    return pairs


def with_fixed(draw, text, pairs):
    """The text with a section of the pairs, some turned round and some given twice, before its EOF or at its end."""
    told = [p if draw.random() < 0.5 else (p[1], p[0]) for p in pairs + draw.sample(pairs, len(pairs) // 3)]
    section = "FIXED_EDGES_SECTION\n" + "".join(f"{u + 1} {v + 1}\n" for u, v in told) + "-1\n"
    lines = text.splitlines(keepends=True)
    lines = [line for line in lines if line.strip() != "EOF"]
    return "".join(lines) + section + "EOF\n"


def holds(tour, pairs):
    steps = {frozenset(step) for step in zip(tour, tour[1:] + tour[:1])}
    return all(frozenset((u + 1, v + 1)) in steps for u, v in pairs)


def solved(work, text, pairs):
    """The length that solve prints, where its tour holds the pairs and its proof is verified, and the seconds it took."""
    names = [f"{work}/{name}" for name in ("instance", "proof", "slots")]
    with open(names[0], "w") as file:
        file.write(text)
    began = time.time()
    status, told = run("tspc", "solve", *names)
    took = time.time() - began
    if status != 0 or not told[0].startswith("OPTIMAL "):
        return f"solve answered {status} {told[:1]}", took
    length = int(told[0].split()[1])
    if not holds(list(map(int, told[1].split()[1:])), pairs):
        return "the tour lacks a fixed pair", took
    if run("tspverify", *names[:2]) != (0, [f"VERIFIED {length}"]):
        return "the proof is refused", took
    status, tour = run("tspc", "tour", names[0])
    cities = [int(line) for line in tour if line.isdigit()]
    if status != 0 or not holds(cities, pairs):
        return "tour prints one that lacks a fixed pair", took
    return length, took


def drawn(count, seed):
    draw, wrong = random.Random(seed), 0
    with tempfile.TemporaryDirectory() as work:
        for k in range(count):
            n = draw.randint(6, 9)
            points = [(draw.randint(0, 99), draw.randint(0, 99)) for _ in range(n)]
            pairs = fixable(draw, n, draw.randint(1, n))
            far = [[abs(a - c) + abs(b - d) for c, d in points] for a, b in points]
            nodes = "".join(f"{i + 1} {x} {y}\n" for i, (x, y) in enumerate(points))
            text = f"TYPE : TSP\nDIMENSION : {n}\nEDGE_WEIGHT_TYPE : MAN_2D\nNODE_COORD_SECTION\n{nodes}"
            least = min(
                sum(far[a][b] for a, b in zip((0, *rest), (*rest, 0)))
                for rest in itertools.permutations(range(1, n))
                if rest[0] < rest[-1] and holds([1, *(c + 1 for c in rest)], pairs)
            )
            answer, _ = solved(work, with_fixed(draw, text, pairs), pairs)
            if answer != least:
                wrong += 1
                print(f"instance {k} ({n} cities, fixed {pairs}): {answer}, and the shortest tour has {least}")
    print(f"{count} drawn instances with fixed pairs: {wrong} wrong")
    return wrong


def real(shared):
    draw, wrong = random.Random(1), 0
    with tempfile.TemporaryDirectory() as work:
        print(f"{'instance':<12} {'fixed':<24} {'length':>10} {'seconds':>9}")
        for name in ("kroA100", "gr120", "r150-s1"):
            path = f"{shared}/instances/{name}.tsp"
            text = open(path).read()
            good = [int(line) - 1 for line in run("tspc", "tour", path)[1] if line.isdigit()]
            n = len(good)
            steps = list(zip(good, good[1:] + good[:1]))
            near = {frozenset(step) for step in steps}
            apart = [(good[k], good[(k + n // 2) % n]) for k in range(0, n // 2, n // 20)][:10]
            for what, pairs in (
                ("none", []),
                ("ten steps of a tour", draw.sample(steps, 10)),
                ("fifty steps of a tour", draw.sample(steps, 50)),
                ("ten far pairs", [p for p in apart if frozenset(p) not in near]),
            ):
                answer, took = solved(work, with_fixed(draw, text, pairs) if pairs else text, pairs)
                wrong += not isinstance(answer, int)
                print(f"{name:<12} {what:<24} {answer:>10} {took:>9.2f}", flush=True)
    return wrong


if __name__ == "__main__":
    if len(sys.argv) < 2 or sys.argv[1] not in ("drawn", "real"):
        sys.exit(__doc__)
    if sys.argv[1] == "drawn":
        numbers = [int(word) for word in sys.argv[2:]] + [200, 1][len(sys.argv) - 2 :]
        sys.exit(1 if drawn(*numbers) else 0)
    sys.exit(1 if real(sys.argv[2] if len(sys.argv) > 2 else f"{TOP}/../shared") else 0)
