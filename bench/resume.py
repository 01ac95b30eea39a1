#!/usr/bin/env python3
"""Times `tspc solve --resume` on a large restart body, beside the same call on a body of one line. Not part of the gate.

  bench/resume.py [MEGABYTES] [CITIES]        a body of at least so many megabytes (100), of an instance of so many cities (2000)

All distances are 10, so the duals of half of that for each city close each node. The body is a chain of splits by one pair after the
other, whose leaves but one are closed. With a budget of 0 nothing is searched: the body is read, each leaf priced anew, and the
body saved again. Times are those of the processor.
"""
import resource
import subprocess
import sys
import tempfile
from itertools import islice
from pathlib import Path

TOP = Path(__file__).resolve().parent.parent
LENGTH = 1 << 20


def program(name):
    built = TOP / "crates" / name / "out" / name
    return str(built if built.exists() else TOP / name)


def instance(n):
    rows = "\n".join(" ".join(["10"] * (n - 1 - u)) for u in range(n - 1))
    return f"NAME : equal\nTYPE : TSP\nDIMENSION : {n}\nEDGE_WEIGHT_TYPE : EXPLICIT\nEDGE_WEIGHT_FORMAT : UPPER_ROW\nEDGE_WEIGHT_SECTION\n{rows}\nEOF\n"


def body(n, size):
    tour = " ".join(str(c) for c in range(1, n + 1))
    front = f"TSPCERT 1\nN {n}\nLENGTH {10 * n}\nTOUR {tour}\nCUTS 0\n"
    leaf = f"L {n} 0 0\n" + "".join(f"P {c} {5 * LENGTH}\n" for c in range(1, n + 1))
    pairs = ((u, v) for u in range(1, n) for v in range(u + 1, n + 1))
    splits = list(islice(pairs, size // len(leaf) + 1)) if size else []
    return front + "".join(f"E {u} {v}\n" for u, v in splits) + "O\n" + leaf * len(splits), len(splits)


def spent():
    """The processor's seconds of all runs so far."""
    use = resource.getrusage(resource.RUSAGE_CHILDREN)
    return use.ru_utime + use.ru_stime


def timed(room, text):
    data = text.encode()
    (room / "restart.0").write_bytes(bytes([1, 0]) + len(data).to_bytes(8, "big") + data)
    (room / "restart.1").unlink(missing_ok=True)
    begun = spent()
    run = subprocess.run([program("tspc"), "solve", str(room / "equal.tsp"), str(room / "proof"), str(room / "restart"), "--resume", "--budget", "0"], stdout=subprocess.PIPE)
    took = spent() - begun
    if run.returncode != 5:
        sys.exit(f"status {run.returncode}: {run.stdout.decode()[:80]}")
    if (room / "restart.1").read_bytes()[10:10 + len(data)] != data:
        sys.exit("the body that was saved is another one")
    return took


def main():
    size = int(float(sys.argv[1] if len(sys.argv) > 1 else 100) * 1e6)
    n = int(sys.argv[2]) if len(sys.argv) > 2 else 2000
    with tempfile.TemporaryDirectory(prefix="resume-") as name:
        room = Path(name)
        (room / "equal.tsp").write_text(instance(n))
        small = timed(room, body(n, 0)[0])
        text, leaves = body(n, size)
        large = timed(room, text)
    print(f"{n} cities, a body of one line: {small:.2f} s; of {len(text):,} bytes, {leaves} closed leaves: {large:.2f} s, {large - small:.2f} s more")


if __name__ == "__main__":
    main()
