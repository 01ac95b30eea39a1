#!/usr/bin/env python3
"""Compares what the programs say of a refusal with what the pages say of it.

  bench/words.py             fails where a page has other words than the table of the programs, a row too many or one too few
  bench/words.py --print     prints the rows of the table, as the pages write them

The table is crates/wording/src/table.rt. The pages are docs/FORMATS.md, which has all rows, and the man pages docs/tspc.1,
docs/tspverify.1 and docs/tspview.1, which have those that the program can print, in their section REFUSALS (the viewer's those that
the verifier does not print).
"""
import re
import sys
from pathlib import Path

TOP = Path(__file__).resolve().parent.parent
TEXT = r'"((?:[^"\\]|\\.)*)"'
ROW = re.compile(rf"Row \{{\s*front: {TEXT},\s*back: {TEXT},\s*words:\s*{TEXT},\s*\}}")
STATUS_ROW = re.compile(rf"StatusRow \{{\s*status: (\d+),\s*words:\s*{TEXT},\s*\}}")
PLACE = {"REFUSALS": "LINE", "CERTIFICATES": "LINE", "FRAMES": "F"}  # what stands for the number of the place
WHERE = {"CERTIFICATES": " (checkbound)"}  # how the pages tell rows whose lines begin alike


def rows_of_the_table():
    rows = {}
    source = (TOP / "crates/wording/src/table.rt").read_text()
    for name, body in re.findall(r"^const (\w+): &\[\w+\] = &\[\n(.*?)^\];", source, re.M | re.S):
        if name == "STATUSES":
            found = [(f"status {status}", words) for status, words in STATUS_ROW.findall(body)]
        else:
            found = [(form(front, back, PLACE[name]) + WHERE.get(name, ""), words) for front, back, words in ROW.findall(body)]
        if len(found) != body.count("words:"):
            sys.exit(f"bench/words.py: {len(found)} rows of {name} could be read, and there are {body.count('words:')}")
        for key, words in found:
            if key in rows:
                sys.exit(f"bench/words.py: the table has two rows {key}")
            rows[key] = words
    return rows


def form(front, back, place):
    """How the pages write a row: with the name of the place, and of two further numbers where anything may follow it."""
    return front + (place if front.endswith(" ") else "") + (" I J" if back == " " else back)


def rows_of_a_man_page(name):
    rows = []
    page = (TOP / "docs" / name).read_text()
    section = re.search(r"^\.SH REFUSALS\n(.*?)^\.SH ", page, re.M | re.S).group(1)
    for item in section.split(".TP\n")[1:]:
        item = re.sub(r"\\f[BIR]", "", item.split(".PP\n")[0]).replace("\\-", "-")
        head, _, words = item.rstrip("\n").partition("\n")
        rows.append((head, words.replace("\n", " ")))
    return rows


def rows_of_the_formats():
    rows = []
    page = (TOP / "docs/FORMATS.md").read_text()
    section = re.search(r"^## Refusals in words\n(.*)", page, re.M | re.S).group(1)
    for line in section.split("\n## ")[0].splitlines():
        cells = [cell.strip().replace("`", "") for cell in line.strip().strip("|").split("|")]
        if not line.startswith("|") or cells[0] == "printed" or set(cells[0]) <= set("-"):
            continue
        key, words = cells[0], [cell for cell in cells[1:] if cell != "-"]
        rows.append((key, "; ".join(words)))
    return rows


def is_of_the_solver(key):
    return not key.startswith(("USAGE tspverify", "USAGE tspview", "REFUSED 12 "))


def is_of_the_verifier(key):
    kinds = ("INSTANCE ", "REFUSED ", "USAGE tspverify", "status 6", "status 7", "status 9")
    return key.startswith(kinds) and not key.endswith("(checkbound)") and not is_of_the_viewer(key)


def is_of_the_viewer(key):
    """What the viewer prints beside what the verifier does: its page names that of the verifier for the rest."""
    return key.startswith(("USAGE tspview", "REFUSED 12 "))


def differences(page, found, wanted):
    keys = [key for key, _ in found]
    for key in sorted({key for key in keys if keys.count(key) > 1}):
        yield f"{page}: {key} stands twice"
    for key, words in found:
        if key not in wanted:
            yield f"{page}: {key} is no row of the table"
        elif words != wanted[key]:
            yield f"{page}: {key}\n  page:  {words}\n  table: {wanted[key]}"
    for key in wanted:
        if key not in keys:
            yield f"{page}: {key} is missing"


def main():
    rows = rows_of_the_table()
    if sys.argv[1:] == ["--print"]:
        for key, words in rows.items():
            print(f"{key}: {words}")
        return 0
    if sys.argv[1:]:
        sys.exit(__doc__)
    faults = list(differences("docs/FORMATS.md", rows_of_the_formats(), rows))
    for page, is_printed in (("tspc.1", is_of_the_solver), ("tspverify.1", is_of_the_verifier), ("tspview.1", is_of_the_viewer)):
        wanted = {key: words for key, words in rows.items() if is_printed(key)}
        faults += differences(f"docs/{page}", rows_of_a_man_page(page), wanted)
    for fault in faults:
        print(fault)
    if not faults:
        print(f"bench/words.py: {len(rows)} rows, and the pages have the same words")
    return 1 if faults else 0


if __name__ == "__main__":
    sys.exit(main())
