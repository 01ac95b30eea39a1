#!/usr/bin/env python3
"""Solves the shared instances in pieces: each run settles at most NODES nodes and leaves a restart body, from which the next one goes on
with --resume. Not part of the gate.

  bench/pieces.py [SHARED] [MOST] [NODES]     the instances of at most MOST cities (100), in pieces of NODES nodes (3)

It fails where a piece settles more nodes than it may, a body is refused, the last length is not the optimum, or its proof is not
accepted. Nodes are counted in the bodies and the proof, by their lines.
"""
import subprocess
import sys
import tempfile
from pathlib import Path

TOP = Path(__file__).resolve().parent.parent


def program(name):
    built = TOP / "crates" / name / "out" / name
    return str(built if built.exists() else TOP / name)


def loaded(restart):
    """The body of the newer slot, by docs/FORMATS.md alone."""
    slots = []
    for k in (0, 1):
        path = Path(f"{restart}.{k}")
        data = path.read_bytes() if path.exists() else b""
        size = int.from_bytes(data[2:10], "big")
        whole = len(data) >= 10 and data[0] == 1 and data[1] <= 2 and len(data) >= 10 + size
        slots.append((data[1], data[10:10 + size]) if whole else None)
    first, second = slots
    if second and (not first or second[0] == (first[0] + 1) % 3):
        return second[1]
    return first[1] if first else None


def settled(text):
    return sum(line[:2] in (b"L ", b"E ", b"K ") for line in text.split(b"\n"))


def solve(tsp, folder, nodes):
    """The answer's first line, how many pieces there were, and what went wrong, if anything did."""
    proof, restart = folder / "proof", folder / "restart"
    for path in folder.iterdir():
        path.unlink()
    before, pieces = 0, 0
    while True:
        words = [program("tspc"), "solve", str(tsp), str(proof), str(restart), "--budget", str(nodes)] + (["--resume"] if pieces else [])
        run = subprocess.run(words, stdout=subprocess.PIPE)
        pieces += 1
        text = proof.read_bytes() if run.returncode == 0 else loaded(restart)
        now = settled(text or b"")
        if run.returncode not in (0, 5):
            return run.stdout.decode().split("\n")[0], pieces, f"status {run.returncode}"
        if now > before + nodes or (run.returncode == 5 and now != before + nodes):
            return "", pieces, f"a piece took {now - before} nodes"
        before = now
        if run.returncode == 0:
            return run.stdout.decode().split("\n")[0], pieces, None


def main():
    shared = Path(sys.argv[1] if len(sys.argv) > 1 else TOP.parent / "shared")
    most = int(sys.argv[2]) if len(sys.argv) > 2 else 100
    nodes = int(sys.argv[3]) if len(sys.argv) > 3 else 3
    rows = [line.split("\t") for line in (shared / "instances" / "optima.tsv").read_text().splitlines()[1:]]
    wrong = 0
    with tempfile.TemporaryDirectory(prefix="pieces-") as room:
        for name, n, _, optimum in sorted((row[:4] for row in rows if row[3] != "-" and int(row[1]) <= most), key=lambda row: int(row[1])):
            tsp = shared / "instances" / name
            answer, pieces, fault = solve(tsp, Path(room), nodes)
            if fault is None and answer != f"OPTIMAL {optimum}":
                fault = f"{answer} in place of {optimum}"
            if fault is None:
                told = subprocess.run([program("tspverify"), str(tsp), str(Path(room) / "proof")], stdout=subprocess.PIPE).stdout.decode().strip()
                fault = None if told == f"VERIFIED {optimum}" else told
            wrong += fault is not None
            print(f"{name:16} {n:>5} {pieces:>6} pieces  {fault or 'right'}")
    print(f"{wrong} wrong")
    sys.exit(1 if wrong else 0)


if __name__ == "__main__":
    main()
