#!/usr/bin/env python3
"""The list of what must be believed, and the check of docs/TRUST.md against it.

  bench/trust.py                  fails where docs/TRUST.md does not have today's lists and lines; changes nothing
  bench/trust.py --write          puts today's lists into docs/TRUST.md, between its markers
  bench/trust.py --print [TOP]    prints the lists (of the clone at TOP), and changes nothing

A part of the list is what its roots name, what the definitions named there name, and so on, without what an earlier part has. A
root is a definition, as CRATE.specs.MODULE.NAME, or `fn CRATE::NAME`: the contract of a function, with its comment. Names are
followed through the lines `use Rattle.CRATE.specs..`, and in code `ghost use` and `use`; those of the toolchain's library and of
ported crates are listed and not followed. Counted are the lines of the definitions, with the comments right above and in them;
blank lines, imports, and what else stands in a file are not.

A name that a definition binds, a variable or a field, hides there a definition of that name. Nothing else is left out: the list
can have a definition too many, but none too few.
"""
import re
import sys
from pathlib import Path

# The parts: a name, lines at commit 3cfdbdd and lines aimed at; roots, of several in a row the first that there is; and what is left
# to a later part.
PARTS = [
    ("A", 585, 300, [["verification.specs.Headline.Verified", "verification.specs.Runs.IsVerifiedRun"]], ["certdef.specs.Accepted.IsAcceptedText"]),
    ("B", 1060, 900, [["fn verification::run_verify"]], []),
    ("C", 796, "-", [["fn tspengine::run"]], []),
]

NAME = r"[^\W\d][\w']*"
WORD = re.compile(rf"(?<![\w.'])({NAME})((?:\.{NAME})*)")
HEAD = re.compile(rf"(abbrev |unfoldable )?(pub )?(record |data )?({NAME}|◌\S+◌)(?= )")
USE = re.compile(r"use Rattle\.([\w.]+?)(?:\.\{([^}]*)\}| as (\w+))?;?$", re.M)
RUST_USE = re.compile(r"^\s*use (\w+)(?:::\w+)*?::(?:\{([^}]*)\}|(\w+));", re.M)


def starts(name):  # where an item of code begins
    return re.compile(rf"^(?:pub(?:\(crate\))? )?(?:enum|struct|trait|type|const|fn) {name}\b", re.M)


class Item:
    """A definition: its file and name, its lines, its parts, and the names of its fields or constructors."""

    def __init__(self, scope, name, kind):
        self.scope, self.name, self.kind, self.lines, self.parts, self.members = scope, name, kind, 0, [], set()


class Scope:
    """A file: its definitions, and what its imports name."""

    def __init__(self, tree, path, text):
        self.tree, self.path, self.items, self.names, self.aliases = tree, path, {}, {}, {}
        for module, names, alias in USE.findall(text.replace("ghost use", "use")):
            module, variants, _ = module.partition(".TheVariants")
            for name in filter(None, (n.strip() for n in names.split(","))):
                first, _, second = name.partition(" as ")
                self.names[second or first] = (module, module.split(".")[-1] if variants else first)
            if not names:
                self.aliases[alias or module.split(".")[-1]] = (module, module.split(".")[-1] if variants else None)

    def own(self, name):  # of this name, or of which it is a constructor
        return self.items.get(name) or next((x for x in self.items.values() if x.kind == "data" and name in x.members), None)

    def find(self, name, rest=""):
        """The definition that a word names here, or None."""
        if self.own(name):
            return self.own(name)
        if name in self.names:
            return self.tree.at(*self.names[name])
        if name in self.aliases and rest:
            module, enum = self.aliases[name]
            return self.tree.at(module, enum or rest.split(".")[1])
        return None


class Spec(Scope):
    """A file of definitions."""

    def __init__(self, tree, path):
        text = path.read_text()
        super().__init__(tree, path, text)
        item, above = None, 0
        for line in text.split("\n"):
            head, inner = HEAD.match(line), re.match(rf"  (?:pub )?({NAME}) : ", line)
            if not line.strip():
                above = 0
            elif line.startswith(("--", "infix")):
                above += 1
            elif re.match(r"(pub )?(use|mod) ", line):
                item, above = None, 0
            elif head and (head[1] or head[2] or head[3] or re.match(r"\S+ : ", line)):
                item = self.items[head[4]] = Item(self, head[4], (head[3] or "").strip())
                item.lines, above = above + 1, 0
                item.parts.append(["head", line[head.end():]])
            elif item:
                item.lines, above = item.lines + above + 1, 0
                if item.kind and inner:
                    item.members.add(inner[1])
                    item.parts.append([inner[1], line[inner.end():]])
                elif line[0] in " }":
                    item.parts[-1][1] += "\n" + line
                else:
                    item.parts.append(["equation", line])


class Code(Scope):
    """A file of code: its types and traits, and the contracts of its functions, each with its comment."""

    def __init__(self, tree, path, crate):
        self.text = path.read_text()
        super().__init__(tree, path, self.text)
        for source, names, name in RUST_USE.findall(self.text):
            for each in (x.strip() for x in (names or name).split(",")):
                if each[:1].isupper():
                    self.names.setdefault(each, (source.replace("crate", crate) + ".src", each))

    def own(self, name):
        return self.item(name) if name[:1].isupper() and starts(name).search(self.text) else None

    def item(self, name):
        if name not in self.items:
            self.items[name] = item = Item(self, name, "code")
            lines, model = self.text.split("\n"), f"impl Model for {name} {{"
            for first, line in enumerate(lines):
                if line == model or starts(name).match(line):
                    self.take(item, lines, first, line != model and model in lines)
        return self.items[name]

    def take(self, item, lines, first, private):
        """Adds what begins at a line; of a type that contracts see by a model the fields are not followed."""
        top, last = first, first
        while re.match(r"///|#\[", lines[top - 1]):
            top -= 1
        while lines[last].startswith(" ") or not re.match(r"[{}]$|.*;$", lines[last]) and not (last == first and lines[last].endswith("}")):
            last += 1
        kept = [line for line in lines[top:last + (lines[last] != "{")] if line.strip()]
        item.lines += len(kept)
        code = "\n".join(line for line in kept if not re.match(r"\s*(//|#\[|ghost use)", line))
        code = re.sub(r"\b(ensures|requires)\*? \w+ \{", "{", code)
        for short, trait in re.findall(r"\b([A-Z]): ([A-Z]\w*)", code):
            code = re.sub(rf"\b{short}\.", f"{trait} .", code)
        item.parts.append(["code", "" if private else code])


class Tree:
    """A clone."""

    def __init__(self, top):
        self.top, self.scopes, self.outside = Path(top), {}, set()

    def scope(self, path, make, *more):
        return self.scopes.get(path) or self.scopes.setdefault(path, make(self, path, *more))

    def code(self, crate, name):
        paths = sorted((self.top / "crates" / crate / "src").rglob("*.rt"))
        return next((self.scope(p, Code, crate).item(name) for p in paths if starts(name).search(p.read_text())), None)

    def at(self, module, name):
        """The definition of a name in a module, or None where there is none in this repository."""
        crate, *rest = module.split(".")
        if not (self.top / "crates" / crate).is_dir():
            self.outside |= {module} if rest[:1] == ["specs"] else set()
            return None
        if rest[0] == "src" or rest[1] == "declared":
            return self.code(crate, name)
        path = (self.top / "crates" / crate / Path(*rest)).with_suffix(".antt")
        return self.scope(path, Spec).find(name) if path.exists() else None

    def root(self, choices):
        for root in choices:
            module, _, name = root.removeprefix("fn ").replace("::", ".").rpartition(".")
            found = self.code(module, name) if root.startswith("fn ") else self.at(module, name)
            if found:
                return found
        sys.exit(f"bench/trust.py: there is none of the roots {', '.join(choices)}; name the new one in PARTS")

    def named(self, item):
        """The definitions that a definition names."""
        found, outer = [], set()
        for part, text in item.parts:
            text = re.sub(r'"[^"]*"|(^|\s)--.*', " ", text)
            binders = re.findall(r"λ ([^.]*?)\.", text) + re.findall(rf"[({{]((?:{NAME} )+):", text) + re.findall(r"\blet ([^=:]*?)[=:]", text)
            bound = outer | set(re.findall(NAME, " ".join(binders))) | set(re.findall(rf"^\s+({NAME}) : ", text, re.M))
            if part == "equation":
                for name, rest in WORD.findall(text.partition(" =")[0]):
                    known = item.scope.find(name, rest)
                    if not known or not (known is item or known.kind == "code" or rest or name in known.members):
                        bound.add(name)
            text = re.sub(rf"(^\s+|[{{;] ){NAME} =(?= )", r"\1", text, flags=re.M)
            found += [item.scope.find(name, rest) for name, rest in WORD.findall(text) if name not in bound]
            signs = [name for name in [*item.scope.names, *item.scope.items] if name[0] == "◌" and name.strip("◌") in text]
            found += [item.scope.find(name) for name in signs]
            outer = bound if part == "head" else outer | {part} if item.kind == "record" else outer
        return [x for x in found if x and x is not item]

    def reached(self, roots, left_out):
        """The definitions that the roots lead to, and the modules outside that they name."""
        seen, todo, self.outside = set(), list(roots), set()
        while todo:
            item = todo.pop()
            todo += self.named(item) if item not in seen | left_out else []
            seen |= {item} - left_out
        return seen, set(self.outside)


def lists(tree):
    """The text of each part."""
    before, texts, totals = set(), {}, ["| part | lines at commit 3cfdbdd | lines today | aim |", "|---|---|---|---|"]
    for part, earlier, aim, roots, later in PARTS:
        seen, outside = tree.reached([tree.root(x) for x in roots], {tree.root([x]) for x in later})
        new, files, rows, whole = seen - before, {}, [], 0
        for item in new:
            files.setdefault(item.scope.path, []).append(item)
        for path in sorted(files, key=lambda p: (p.suffix == ".rt", str(p))):
            items, lines = sorted(files[path], key=lambda x: list(x.scope.items).index(x.name)), len(path.read_text().splitlines())
            names, whole = ", ".join(f"`{x.name}`" for x in items), whole + lines
            rows.append(f"| {path.relative_to(tree.top)} | {names} | {sum(x.lines for x in items)} | {lines} |")
        specs = sum(x.lines for x in new if x.scope.path.suffix == ".antt")
        code = sum(x.lines for x in new) - specs
        texts[part] = "\n".join([
            "| file | definitions | their lines | lines of the file |", "|---|---|---|---|", *rows, "",
            f"**{part}: {specs + code} lines**, {specs} of definitions and {code} of code: {len(new)} names, in {len(files)} files of {whole} lines.", "",
            "Of the library: " + ", ".join(f"`{x}`" for x in sorted(outside)) + ".",
        ])
        totals.append(f"| {part} | {earlier} | {specs + code} | {aim} |")
        before |= seen
    return texts | {"totals": "\n".join(totals)}


def main():
    top = Path(__file__).resolve().parent.parent
    if sys.argv[1:2] == ["--print"]:
        for part, text in lists(Tree(sys.argv[2] if sys.argv[2:] else top)).items():
            print(f"## {part}\n\n{text}\n")
        return
    page = top / "docs" / "TRUST.md"
    old = new = page.read_text()
    for part, text in lists(Tree(top)).items():
        begin, end = f"<!-- {part}: written by bench/trust.py -->\n", f"\n<!-- end of {part} -->"
        assert begin in new and end in new, f"bench/trust.py: docs/TRUST.md lacks the two markers of {part}"
        new = new[:new.index(begin) + len(begin)] + text + new[new.index(end):]
    if new != old and sys.argv[1:2] == ["--write"]:
        page.write_text(new)
    elif new != old:
        for line in sorted(set(old.splitlines()) ^ set(new.splitlines())):
            print("what is so now:  " if line in new else "in docs/TRUST.md:", line)
        sys.exit("bench/trust.py: docs/TRUST.md is not what must be believed today; read what changed, then bench/trust.py --write")


main()
