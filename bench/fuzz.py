#!/usr/bin/env python3
"""Hostile texts through the built programs, outside the gate. bench/fuzz.sh calls it with all processors.

  bench/fuzz.py [COUNT] [SEED] [JOBS] [KIND..]      (default 1000 1 1 and all kinds) COUNT texts of each kind, drawn and then mutated

| kind | what | the calls |
|---|---|---|
| instances | instance texts, some with fixed edges | `solve`, `tour` |
| proofs | proof texts of both versions, some of drawn trees | `tspverify`, `tspc verify` |
| bodies | restart slots: their bytes, and the bodies in them | `solve --resume` |
| tapes | frames of events | `replay`, where the program knows it |
| certificates | one-tree certificates | `checkbound`, where the program knows it |

Each run must end by itself within a limit of time and memory, with a status of the table of docs/tspc.1 that its command can have, and with
the text that belongs to it. `tspverify` and `tspc verify` must agree. What is answered must hold together: where a mutated instance is still
an instance, an OPTIMAL length is VERIFIED from the proof that was written; of the others the length of a shortest tour is known from the
text before its change, so no length may be below it, and no bound above. Refused slots stay as they are. Prints counts by kind, status and
refusal, and the texts of the first failures into the folder fuzz-failures. ZUKONAWI_PROGRAMS names a folder that has the programs.
"""
import collections
import multiprocessing
import os
import random
import re
import resource
import subprocess
import sys
import tempfile

TOP = os.path.dirname(os.path.dirname(os.path.abspath(__file__)))
SECONDS, BYTES = 120, 2 << 30
SCALE = 1 << 20
KINDS = ("instances", "proofs", "bodies", "tapes", "certificates")


def program(name):
    folder = os.environ.get("ZUKONAWI_PROGRAMS")
    if folder:
        return f"{folder}/{name}"
    built = f"{TOP}/crates/{name}/out/{name}"
    return built if os.access(built, os.X_OK) else f"{TOP}/bin/{name}"


PROGRAMS = {name: program(name) for name in ("tspc", "tspverify")}


def run(name, *words):
    """The status and the text of a run; a run that does not end in time has the status None."""
    try:
        ran = subprocess.run([PROGRAMS[name], *words], stdin=subprocess.DEVNULL, capture_output=True, timeout=SECONDS)
    except subprocess.TimeoutExpired:
        return None, ""
    return ran.returncode, ran.stdout.decode("latin-1") + ran.stderr.decode("latin-1")


def limit_memory():
    """What is started from here on has so much address space; not a program that is built to look for bad accesses, which needs more."""
    hard = resource.getrlimit(resource.RLIMIT_AS)[1]
    resource.setrlimit(resource.RLIMIT_AS, (BYTES, hard))
    if run("tspverify")[0] != 2:
        resource.setrlimit(resource.RLIMIT_AS, (hard, hard))
        return False
    return True


def clear(folder):
    for name in os.listdir(folder):
        os.remove(f"{folder}/{name}")


def write(path, what):
    with open(path, "wb") as file:
        file.write(what if isinstance(what, bytes) else what.encode("latin-1"))


def read(path):
    with open(path, "rb") as file:
        return file.read()


# Drawing


def numbered(cities):
    return f"{len(cities)} {' '.join(map(str, sorted(cities)))}"


def fixed_section(draw, n):
    """A section of fixed edges: a piece of a path through drawn cities; none for half of the texts."""
    if draw.random() < 0.5:
        return ""
    path = draw.sample(range(1, n + 1), draw.randint(2, n))
    pairs = "".join(f"{u} {v}\n" for u, v in zip(path, path[1:]))
    return f"FIXED_EDGES_SECTION\n{pairs}-1\n"


def instance(draw):
    """A small instance text of a drawn kind."""
    kind = draw.choice(("EUC_2D", "CEIL_2D", "ATT", "MAN_2D", "MAX_2D", "FULL_MATRIX", "UPPER_ROW", "LOWER_DIAG_ROW"))
    n = draw.randint(3, 9)
    fixed = fixed_section(draw, n)
    if "_2D" in kind or kind == "ATT":
        points = "".join(f"{i} {draw.randint(-50, 50)} {draw.randint(0, 99)}\n" for i in range(1, n + 1))
        return n, f"NAME : x\nTYPE : TSP\nDIMENSION : {n}\nEDGE_WEIGHT_TYPE : {kind}\nNODE_COORD_SECTION\n{points}{fixed}EOF\n"
    rows = [[draw.randint(0, 60) for _ in range(n)] for _ in range(n)]
    row = {
        "FULL_MATRIX": lambda i: [rows[min(i, j)][max(i, j)] for j in range(n)],
        "UPPER_ROW": lambda i: rows[i][i + 1 :],
        "LOWER_DIAG_ROW": lambda i: rows[i][: i + 1],
    }[kind]
    body = "\n".join(" ".join(map(str, row(i))) for i in range(n))
    head = f"NAME: x\nTYPE: TSP\nDIMENSION: {n}\nEDGE_WEIGHT_TYPE: EXPLICIT\nEDGE_WEIGHT_FORMAT: {kind}\nEDGE_WEIGHT_SECTION\n"
    return n, f"{head}{body}\n{fixed}EOF\n"


def tree(draw, n, leaf, depth):
    """The lines of a drawn tree with these leaves. Some of its splits are of decided pairs."""
    if depth == 0 or draw.random() < 0.3:
        return leaf()
    if draw.random() < 0.7:
        u, v = sorted(draw.sample(range(1, n + 1), 2))
        split = f"E {u} {v}"
    else:
        split = f"K {numbered(draw.sample(range(1, n + 1), draw.randint(1, n - 1)))}"
    return [split, *tree(draw, n, leaf, depth - 1), *tree(draw, n, leaf, depth - 1)]


def grown(draw, n, proof, open_leaves):
    """A proof's text with a drawn tree whose leaves are closed as the proof closes its own, where it has one alone, or open."""
    lines = proof.split("\n")[:-1]
    at = next(k for k, line in enumerate(lines) if line[0] in "LOEK" and not line.startswith("LENGTH"))
    if lines[at][0] != "L":
        return proof
    closed = lines[at:]
    leaf = lambda: ["O"] if draw.random() < open_leaves else closed
    return "\n".join([*lines[:at], *tree(draw, n, leaf, draw.randint(0, 5)), ""])


NUMBERS = "0 1 2 3 -1 04 +5 1e3 1.0 0.5 .5 5. 16777216 16777217 -16777217 1073741823 1073741824 4096 4097 4294967295 4294967296 4398046511104 4611686018427387904 4611686018427387905 99999999999999999999".split()
WORDS = "|TSP|E 1 2|K 2 1 2|O|L 0 0 0|S 2 1 2|C 3|H 2 1 2|T 2 1 3|B 1|F 1 2|P 1 1|Y 1 1|Z 1 1|CUTS 1|BOUND 1|TSPCERT 2|EOF|FIXED_EDGES_SECTION".split("|")


def mutated(draw, text):
    """The text with one to three small changes."""
    for _ in range(draw.randint(1, 3)):
        lines = text.split("\n")
        at = draw.randrange(len(lines))
        way = draw.randrange(8)
        if way == 0 and text:
            place = draw.randrange(len(text))
            text = text[:place] + chr(draw.choice([0, 9, 10, 13, 32, 45, 48, 58, 127, 200, draw.randrange(256)])) + text[place + draw.randint(0, 1) :]
            continue
        if way == 1:
            del lines[at]
        elif way == 2:
            lines.insert(at, lines[draw.randrange(len(lines))])
        elif way == 3:
            other = draw.randrange(len(lines))
            lines[at], lines[other] = lines[other], lines[at]
        elif way == 4:
            text = text[: draw.randrange(len(text) + 1)]
            continue
        else:
            words = lines[at].split(" ")
            words[draw.randrange(len(words))] = draw.choice(NUMBERS if way < 7 else WORDS)
            lines[at] = " ".join(words)
        text = "\n".join(lines)
    return text


def changed(draw, given):
    """Bytes with none to three small changes."""
    given = bytearray(given)
    for _ in range(draw.randint(0, 3)):
        at = draw.randrange(len(given) + 1)
        way = draw.randrange(4)
        if way == 0:
            given[at:] = b""
        elif way == 1:
            given[at : at + draw.randint(1, 4)] = b""
        else:
            given[at : at + draw.randint(0, 1)] = bytes([draw.choice([0, 1, 2, 3, 255, draw.randrange(256)])])
    return bytes(given)


def frame(kind, *parts):
    told = bytes([kind]) + b"".join(part.to_bytes(4, "big") if isinstance(part, int) else part.encode() for part in parts)
    return len(told).to_bytes(4, "big") + told


def tape(draw, n, proof):
    """A drawn tape: events of few grunts and leases, reports of splits and of the proof's closing, and tours."""
    lines = proof.split("\n")
    at = next(k for k, line in enumerate(lines) if line.startswith("CUTS"))
    closing = "\n".join(lines[at:])
    frames = []
    for _ in range(draw.randint(0, 12)):
        kind = draw.choice((1, 1, 1, 2, 2, 3, 4, 5))
        if kind in (1, 3):
            frames.append(frame(kind, draw.randint(1, 2)))
        elif kind == 2:
            u, v = sorted(draw.sample(range(1, n + 1), 2))
            texts = (closing, f"CUTS 0\nE {u} {v}\n", f"CUTS 0\nK {numbered(draw.sample(range(1, n + 1), draw.randint(1, n - 1)))}\n", "CUTS 0\nL 0 0 0\n")
            frames.append(frame(2, draw.randint(0, 4), draw.choice(texts)))
        elif kind == 4:
            frames.append(frame(4, draw.randint(0, 4)))
        else:
            frames.append(frame(5, f"TOUR {' '.join(map(str, draw.sample(range(1, n + 1), n)))}\n"))
    return b"".join(frames)


# Judging


def fail(why, *texts):
    folder = f"{TOP}/fuzz-failures"
    os.makedirs(folder, exist_ok=True)
    base = f"{folder}/{os.getpid()}-{len(os.listdir(folder))}"
    for at, text in enumerate(texts):
        write(f"{base}.{at}", text)
    return f"{why} ({base})"


def told(kind, status, said):
    """What a run is counted as: its status, and the refusal where there is one."""
    refused = re.search(r"^(?:REFUSED|RESTART|FRAME) (\d+)", said, re.M)
    return f"{kind:12} {status}" + (f" {refused[1]}" if status == 4 and refused else "")


def judge_instance(work, case, draw):
    text = mutated(draw, case["text"])
    clear(work)
    write(f"{work}/i", text)
    status, said = run("tspc", "solve", f"{work}/i", f"{work}/p", f"{work}/r", "--budget", "50")
    toured, tour = run("tspc", "tour", f"{work}/i")
    if status == 3:
        good = re.fullmatch(r"INSTANCE \d+ \d+( \d+)*\n", said) and (toured, tour) == (3, said) and os.listdir(work) == ["i"]
    elif status == 0:
        optimal = re.match(r"OPTIMAL (\d+)\nTOUR( \d+)+\n\Z", said)
        good = optimal and toured == 0 and run("tspverify", f"{work}/i", f"{work}/p") == (0, f"VERIFIED {optimal[1]}\n")
    else:
        good = status == 5 and re.fullmatch(r"STOPPED \d+ \d+\n", said) and toured == 0 and not os.path.exists(f"{work}/p")
    return told("instances", status, said), None if good else fail(f"solve {status} {said!r}, tour {toured}", text)


def judge_proof(work, case, draw):
    proof = draw.choice(case["proofs"])
    if draw.random() < 0.5:
        proof = grown(draw, case["n"], proof, 0.02)
    text = mutated(draw, proof) if draw.random() < 0.95 else proof
    clear(work)
    write(f"{work}/i", case["text"])
    write(f"{work}/p", text)
    one, two = run("tspverify", f"{work}/i", f"{work}/p"), run("tspc", "verify", f"{work}/i", f"{work}/p")
    status, said = one
    within = re.fullmatch(r"WITHIN (\d+) (\d+)\n", said)
    good = one == two and (
        one == (0, f"VERIFIED {case['length']}\n")
        or status == 10 and within and int(within[2]) <= case["length"] <= int(within[1]) and within[1] != within[2]
        or status == 4 and re.fullmatch(r"REFUSED ([1-9]|11) \d+\n", said)
    )
    return told("proofs", status, said), None if good else fail(f"{one} {two}, length {case['length']}", case["text"], text)


def slot(draw, body):
    """A slot's bytes that hold the body, now and then with another gate, number or length."""
    gate = 1 if draw.random() < 0.9 else draw.randrange(256)
    number = draw.randrange(3) if draw.random() < 0.95 else draw.randrange(256)
    size = len(body) if draw.random() < 0.95 else draw.choice((0, len(body) + 1, 1 << 32, (1 << 64) - 1))
    return bytes([gate, number]) + size.to_bytes(8, "big") + body + bytes(draw.choice((0, 0, 3)))


def judge_body(work, case, draw):
    clear(work)
    write(f"{work}/i", case["text"])
    slots = {}
    for name in "r.0", "r.1":
        if draw.random() < 0.7:
            body = grown(draw, case["n"], draw.choice(case["proofs"]), 0.5)
            body = (mutated(draw, body) if draw.random() < 0.7 else body).encode("latin-1")
            slots[name] = slot(draw, body) if draw.random() < 0.9 else changed(draw, slot(draw, body))
            write(f"{work}/{name}", slots[name])
    gap = draw.choice((0, 0, 5))
    words = ("--resume", "--budget", str(draw.choice((0, 1, 50))), "--grunts", str(draw.randint(1, 3)), "--gap", str(gap))
    status, said = run("tspc", "solve", f"{work}/i", f"{work}/p", f"{work}/r", *words)
    optimal = re.match(r"OPTIMAL (\d+)\nTOUR( \d+)+\n\Z", said)
    within = re.match(r"WITHIN (\d+) (\d+)\nTOUR( \d+)+\n\Z", said)
    stopped = re.fullmatch(r"STOPPED (\d+) (\d+)\n", said)
    checked = run("tspverify", f"{work}/i", f"{work}/p") if status in (0, 10) else None
    if status == 4:
        kept = {name: read(f"{work}/{name}") for name in os.listdir(work) if name in ("r.0", "r.1")}
        good = re.fullmatch(r"RESTART [1-5] \d+\n", said) and kept == slots and not os.path.exists(f"{work}/p")
    elif status == 0:
        good = optimal and int(optimal[1]) == case["length"] and checked == (0, f"VERIFIED {optimal[1]}\n")
    elif status == 10:
        length, bound = (int(within[1]), int(within[2])) if within else (0, 0)
        good = within and bound <= case["length"] <= length <= bound + gap and checked == (10, f"WITHIN {length} {bound}\n")
    else:
        good = status == 5 and stopped and int(stopped[1]) >= case["length"] and int(stopped[2]) > 0
    return told("bodies", status, said), None if good else fail(f"{status} {said!r} {words}, length {case['length']}", case["text"], *slots.values())


EVENT = r"LEASED \d+ \d+ \d+|NOTYET|DONE|SPENT|HOME|TAKEN|STALE|UNKNOWN|MISFIT \d+|WEAK -?\d+ -?\d+|LOST \d+|NONE|EXPIRED|NOTHELD|OFFFIXED \d+ \d+|NOTSHORTER \d+|BETTER"


def judge_tape(work, case, draw):
    given = changed(draw, tape(draw, case["n"], case["proofs"][0]))
    clear(work)
    write(f"{work}/i", case["text"])
    write(f"{work}/t", given)
    status, said = run("tspc", "replay", f"{work}/i", f"{work}/t", "--budget", "5", "--grunts", "2")
    ended = re.fullmatch(rf"(?:(?:{EVENT})\n)*END \d+ \d+ (\d+)\n", said)
    good = status == 0 and ended and int(ended[1]) >= case["length"] or status == 4 and re.fullmatch(rf"(?:(?:{EVENT})\n)*FRAME [1-6] \d+\n", said)
    return told("tapes", status, said), None if good else fail(f"{status} {said!r}, length {case['length']}", case["text"], given)


def judge_certificate(work, case, draw):
    text = mutated(draw, draw.choice(case["certificates"]))
    clear(work)
    write(f"{work}/i", case["text"])
    write(f"{work}/c", text)
    status, said = run("tspc", "checkbound", f"{work}/i", f"{work}/c")
    checked = re.fullmatch(r"CHECKED (\d+)\n", said)
    good = status == 0 and checked and int(checked[1]) <= case["length"] or status == 4 and re.fullmatch(r"REFUSED [127] \d+\n", said)
    return told("certificates", status, said), None if good else fail(f"{status} {said!r}, length {case['length']}", case["text"], text)


def case_of(work, draw, failures, knows_bounds):
    """An instance and what the programs make of it before anything is changed, or None and a failure."""
    n, text = instance(draw)
    clear(work)
    write(f"{work}/i", text)
    status, said = run("tspc", "solve", f"{work}/i", f"{work}/p", f"{work}/r")
    if status != 0:
        failures.append(fail(f"the unchanged instance: {status} {said!r}", text))
        return None
    case = {"n": n, "text": text, "length": int(said.split()[1]), "proofs": [read(f"{work}/p").decode()], "certificates": []}
    if case["length"] > 0:
        gap = draw.randint(1, case["length"])
        status, said = run("tspc", "solve", f"{work}/i", f"{work}/p", f"{work}/r", "--gap", str(gap))
        if status not in (0, 10):
            failures.append(fail(f"a gap of {gap}: {status} {said!r}", text))
            return None
        case["proofs"].append(read(f"{work}/p").decode())
    for steps in ("0", "10") if knows_bounds else ():
        status, said = run("tspc", "bound", f"{work}/i", f"{work}/c", "--steps", steps)
        if status != 0 or int(said.split()[1]) > case["length"]:
            failures.append(fail(f"a bound by {steps} steps: {status} {said!r}, length {case['length']}", text))
            return None
        case["certificates"].append(read(f"{work}/c").decode())
    return case


JUDGES = dict(zip(KINDS, (judge_instance, judge_proof, judge_body, judge_tape, judge_certificate)))


def part(job):
    count, seed, kinds = job
    limit_memory()
    draw, counts, failures = random.Random(seed), collections.Counter(), []
    with tempfile.TemporaryDirectory(dir="/dev/shm" if os.access("/dev/shm", os.W_OK) else None) as work:
        done = 0
        while done < count and len(failures) < 100:
            case = case_of(work, draw, failures, "certificates" in kinds)
            for _ in range(min(20, count - done) if case else 0):
                for kind in kinds:
                    key, failure = JUDGES[kind](work, case, draw)
                    counts[key] += 1
                    failures += [failure] * bool(failure)
                done += 1
    return counts, failures


def main():
    numbers = [int(it) for it in sys.argv[1:4]]
    count, seed, jobs = numbers + [1000, 1, 1][len(numbers) :]
    usage = run("tspc")[1]
    served = {"tapes": "/replay" in usage, "certificates": "/checkbound" in usage}
    kinds = [it for it in sys.argv[4:] or KINDS if served.get(it, True)]
    unknown = [it for it in kinds if it not in JUDGES]
    if unknown:
        print(f"fuzz: no such kind: {unknown[0]}", file=sys.stderr)
        return 2
    for kind in sorted(set(sys.argv[4:] or KINDS) - set(kinds)):
        print(f"fuzz: no {kind}: this program does not know their commands")
    with multiprocessing.Pool(jobs) as pool:
        if not pool.apply(limit_memory):
            print("fuzz: no limit of memory: the programs need more address space than a built one")
        given = pool.map(part, [((count + jobs - 1) // jobs, seed * 1000003 + it, kinds) for it in range(jobs)], 1)
    counts, failures = sum((it for it, _ in given), collections.Counter()), [it for _, more in given for it in more]
    for key, number in sorted(counts.items()):
        print(f"{key:18} {number}")
    for it in failures[:20]:
        print("FAILED", it)
    print(f"{sum(counts.values())} texts, {len(failures)} failures")
    return 1 if failures else 0


if __name__ == "__main__":
    sys.exit(main())
