#!/usr/bin/env python3
"""Runs of `tspc solve` that are killed at drawn moments, and what their slots hold afterwards. Not part of the gate.

  bench/crash.py [RUNS] [--cities N] [--seed S] [--resume]

Draws an instance of N cities (200), and RUNS times (200) starts `bin/tspc solve` on it with a drawn budget of 2 to 8, and kills it at
a drawn moment: before it ends, or right after the first slot file changed, so that many are cut off inside a save. After each run
the slots are read by docs/FORMATS.md alone: they must hold no body, or one that is whole. That is the body from before the run or
one that the run handed in; and the latter, if the run ended with status 5. A run is counted as cut off inside a save where it was
killed and left a slot with a closed gate, or one that is open and torn.

--resume starts each run with `--resume` where the slots hold a body, and wants each of these to be accepted (no status 4) and a
last run, that is not killed, to reach the optimum. Without it every run starts anew, and the last one must end with status 0 or 5.
"""
import argparse
import random
import re
import shutil
import subprocess
import sys
import tempfile
import time
from pathlib import Path

TOP = Path(__file__).resolve().parent.parent


def instance(rng, cities):
    lines = ["NAME : drawn", "TYPE : TSP", f"DIMENSION : {cities}", "EDGE_WEIGHT_TYPE : EUC_2D", "NODE_COORD_SECTION"]
    lines += [f"{k + 1} {rng.randrange(10000)} {rng.randrange(10000)}" for k in range(cities)]
    return "\n".join(lines + ["EOF", ""])


class Slot:
    """A slot by its bytes: its number and body where it is valid; whether its gate is closed, or open before a torn rest."""

    def __init__(self, data):
        self.number = self.body = None
        self.is_shut = len(data) > 0 and data[0] != 1
        if len(data) >= 10 and data[0] == 1 and data[1] <= 2:
            size = int.from_bytes(data[2:10], "big")
            if 10 + size <= len(data):
                self.number, self.body = data[1], data[10:10 + size]
        self.is_torn = len(data) > 0 and data[0] == 1 and self.body is None


def slots_at(restart):
    return [Slot(path.read_bytes() if path.exists() else b"") for path in paths_of(restart)]


def paths_of(restart):
    return [Path(f"{restart}.{k}") for k in (0, 1)]


def loaded(slots):
    first, second = slots
    if second.body is not None and (first.body is None or second.number == (first.number + 1) % 3):
        return second.body
    return first.body


def is_whole(body, cities):
    """The lines that each body of the form has, and an end; what a verifier would check of it is not checked here."""
    text = body.decode("ascii", "replace")
    head = re.match(r"TSPCERT [12]\nN (\d+)\n(?:LENGTH|BOUND)[^\n]*\n(?:[A-Z]+ [^\n]*\n)*?TOUR ([\d ]+)\n", text)
    if head is None or int(head[1]) != cities or not text.endswith("\n"):
        return False
    return sorted(map(int, head[2].split(" "))) == list(range(1, cities + 1))


def marks(restart):
    return [(path.stat().st_mtime_ns, path.stat().st_size) if path.exists() else None for path in paths_of(restart)]


def killed(command, restart, rng, span):
    """Runs the command, kills it at a drawn moment, and gives its status: None where it was killed."""
    before = marks(restart)
    moment = time.monotonic() + rng.uniform(0, 1.1 * span)
    waits_for_save = rng.random() < 0.7
    child = subprocess.Popen(command, stdout=subprocess.DEVNULL, stderr=subprocess.DEVNULL)
    while child.poll() is None:
        if waits_for_save:
            if marks(restart) != before:
                time.sleep(rng.choice((0, rng.uniform(0, 0.002), rng.uniform(0, 0.02))))
                child.kill()
                break
        elif time.monotonic() >= moment:
            child.kill()
            break
        time.sleep(0 if waits_for_save else 0.001)
    status = child.wait()
    return None if status < 0 else status


def main():
    parser = argparse.ArgumentParser()
    parser.add_argument("runs", nargs="?", type=int, default=200)
    parser.add_argument("--cities", type=int, default=200)
    parser.add_argument("--seed", type=int, default=1)
    parser.add_argument("--resume", action="store_true")
    options = parser.parse_args()
    rng = random.Random(options.seed)
    tspc = TOP / "bin" / "tspc"
    if not tspc.exists():
        sys.exit("bench/crash.py: no bin/tspc; run ./build tspc first")
    folder = Path(tempfile.mkdtemp(prefix="crash-"))
    tsp, proof, restart = folder / "drawn.tsp", folder / "proof", folder / "restart"
    tsp.write_text(instance(rng, options.cities))

    def command(budget, resumes):
        return [str(tspc), "solve", str(tsp), str(proof), str(restart), "--budget", str(budget)] + (["--resume"] if resumes else [])

    start = time.monotonic()
    subprocess.run(command(4, False), stdout=subprocess.DEVNULL, stderr=subprocess.DEVNULL)
    span = time.monotonic() - start
    for path in paths_of(restart):
        path.unlink(missing_ok=True)

    counts = {"killed": 0, "inside a save": 0, "ended": 0, "resumed": 0}
    faults = 0
    for run in range(options.runs):
        old = loaded(slots_at(restart))
        resumes = options.resume and old is not None
        status = killed(command(rng.randrange(2, 9), resumes), restart, rng, span)
        slots = slots_at(restart)
        body = loaded(slots)
        counts["killed" if status is None else "ended"] += 1
        counts["resumed"] += resumes
        counts["inside a save"] += status is None and any(slot.is_shut or slot.is_torn for slot in slots)
        wrong = []
        if body is not None and not is_whole(body, options.cities):
            wrong.append("the body that loads is not whole")
        if body is None and old is not None:
            wrong.append("a body is lost")
        if status == 5 and (body is None or all(slot.body is None for slot in slots)):
            wrong.append("status 5, and there is no body")
        if status not in (None, 0, 5):
            wrong.append(f"status {status}")
        if wrong:
            faults += 1
            print(f"run {run}: {'; '.join(wrong)} (kept in {folder})")
    last = subprocess.run(command(65536 if options.resume else 8, options.resume and loaded(slots_at(restart)) is not None), stdout=subprocess.PIPE).returncode
    if last not in ((0,) if options.resume else (0, 5)):
        faults += 1
        print(f"the last run ended with status {last} (kept in {folder})")
    print(", ".join(f"{count} {what}" for what, count in counts.items()), f"; last status {last}; {faults} faults", sep="")
    if counts["inside a save"] == 0:
        print("no run was cut off inside a save")
    if faults == 0:
        shutil.rmtree(folder)
    sys.exit(1 if faults else 0)


if __name__ == "__main__":
    main()
