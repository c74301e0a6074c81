#!/usr/bin/env python3
"""Lists the places in crates/*/src where an older form may stand, by the points of docs/DESIGN-PASS.md.

    python3 tools/places.py [POINT] [--repo FOLDER]

Each line is a place; each point ends with its count. A place is one to look at: the page says of each whether it changed or why it stays.
"""
import argparse
import itertools
import pathlib
import re

POINTS = "1234567"


class Tree:
    """The crates that are built, with their source lines."""

    def __init__(self, root):
        self.root = pathlib.Path(root)
        lines = (self.root / "crates.txt").read_text().splitlines()
        names = [l.split(":")[0].strip() for l in lines if ":" in l and not l.startswith("#")]
        self.files = {}
        for name in names:
            for path in sorted((self.root / "crates" / name / "src").rglob("*.rt")):
                self.files[str(path.relative_to(self.root))] = path.read_text().splitlines()

    def matching(self, pattern):
        wanted = re.compile(pattern)
        for path, lines in self.files.items():
            for at, line in enumerate(lines):
                if wanted.search(line):
                    yield path, at, line.strip()

    def functions(self):
        """Of each function: path, line, signature (one line), clauses, body (a list of lines)."""
        for path, lines in self.files.items():
            for at, line in enumerate(lines):
                if not re.match(r"\s*(pub(\([a-z]+\))? )?fn \w", line):
                    continue
                indent = len(line) - len(line.lstrip())
                end = at
                while end < len(lines) and not re.match(r"\s{%d}\}|.*\) .*;$|.*\{\}$|.*\};$" % indent, lines[end]):
                    end += 1
                whole = lines[at : end + 1]
                clauses = [l.strip() for l in whole if re.match(r"\s+(requires|ensures)\b", l)]
                opening = next((i for i, l in enumerate(whole) if l.rstrip().endswith("{") and "ensures" not in l), 0)
                head = re.split(r"\b(requires|ensures)\b|\{$", " ".join(l.strip() for l in whole))[0]
                yield path, at, head, clauses, whole[opening + 1 : -1]

    def structs(self):
        """Of each struct with named fields: path, line, name, the lines of its fields."""
        for path, lines in self.files.items():
            for at, line in enumerate(lines):
                named = re.match(r"\s*(pub(\([a-z]+\))? )?struct (\w+).*\{$", line)
                if named:
                    end = next(i for i in range(at, len(lines)) if lines[i].strip() == "}")
                    yield path, at, named.group(3), [l.strip() for l in lines[at + 1 : end]]


def own_results(tree):
    """1: a refusal as an Option, a number told of a refusal, an enum with few derives, a number that stands for none."""
    yield from tree.matching(r"fn .*-> Option<\w*Refusal>")
    yield from tree.matching(r"fn number\(|-> u8 .*ensures.*number")
    yield from tree.matching(r"//.*\b(or 0\b|0 where|0 for|0 if|14 for|14 if|14, which|14 stands)")
    for path, lines in tree.files.items():
        for at, line in enumerate(lines):
            if re.match(r"\s*(pub )?enum ", line) and "Debug" not in lines[at - 1]:
                yield path, at, line.strip()


KEPT_WORDS = {"if", "else", "match", "for", "in", "while", "return", "let", "mut", "self", "Some", "None", "Ok", "Err", "true", "false", "fn"}


def shape(body):
    text = " ".join(body)
    text = re.sub(r"//[^\n]*", "", text)
    text = re.sub(r"\"[^\"]*\"|b'.'", "s", text)
    text = re.sub(r"\b\d[\d_]*\b", "n", text)
    return re.sub(r"\b[A-Za-z_]\w*\b", lambda m: m.group() if m.group() in KEPT_WORDS else "x", text)


def twins(tree):
    """2: functions and structs that differ only in names, types, numbers and texts."""
    seen = {}
    for path, at, head, _, body in tree.functions():
        form = re.sub(r"\s+", "", shape(body))
        if len(form) >= 45:
            seen.setdefault(form, []).append((path, at, head))
    for path, at, name, fields in tree.structs():
        form = " ".join(sorted(f for f in fields if not f.startswith("//")))
        seen.setdefault(form, []).append((path, at, "struct " + name))
    for places in seen.values():
        if len(places) > 1:
            yield from places


def index_loops(tree):
    """3: loops over a counted index, counters, and loops that end in a test's answer."""
    yield from tree.matching(r"\bfor [a-z]\w* in .*\.\.")
    yield from tree.matching(r"\bwhile .*\{")
    yield from tree.matching(r"\w [+-]= 1;")
    for path, lines in tree.files.items():
        for at, line in enumerate(lines):
            loop = re.match(r"(\s*)for \w+ in [^.]*(\(\))?[^.]* \{$", line)
            if loop:
                body = itertools.takewhile(lambda l: not l.startswith(loop.group(1) + "}"), lines[at + 1 :])
                if any(re.search(r"return (true|false|None|Some)\b", l) for l in body):
                    yield path, at, line.strip()


def by_hand(tree):
    """4: equality, order, hashing, copying, conversion and printing as functions."""
    yield from tree.matching(r"fn (same|before|hash|to_cell|of|number|fmt|from|try_from|eq|cmp|clone|copied|\w+_before|hash_\w+|same_\w+)[(<]")


def repeated(tree):
    """5: clauses that stand in three functions or more, and parameters that travel together through three or more."""
    by_clause, by_group = {}, {}
    for path, at, head, clauses, _ in tree.functions():
        for clause in clauses:
            fact = re.sub(r"^(requires|ensures)\*? *\w* *", "", clause)
            by_clause.setdefault((clause.split()[0], fact), []).append((path, at))
        given = re.sub(r"fn \w+<[^(]*>\(", "fn f(", head.split("->")[0]).partition("(")[2]
        names = re.findall(r"(\w+): ([^,)]+)", given)
        for size in (5, 4, 3, 2):
            for group in itertools.combinations(sorted(set(names)), size):
                by_group.setdefault(group, []).append((path, at))
    for (kind, fact), places in by_clause.items():
        if len(places) >= 3:
            yield places[0][0], places[0][1], f"{len(places)} functions: {kind} {fact}"
    for group, places in by_group.items():
        larger = [g for g in by_group if len(g) > len(group) and set(group) < set(g) and len(by_group[g]) >= 3]
        if len(places) >= 3 and len(group) >= 2 and not larger:
            yield places[0][0], places[0][1], f"{len(places)} functions: " + ", ".join(f"{n}: {t}" for n, t in group)


def buffers(tree):
    """6: structs that hold an array or a Vec and a number beside it, or two of them side by side."""
    for path, at, name, fields in tree.structs():
        fields = [f for f in fields if re.match(r"(pub )?\w+: ", f)]
        lists = [f for f in fields if re.search(r": (\[|Vec<)", f)]
        numbers = [f for f in fields if re.search(r": (usize|u8|u16|u32),", f)]
        if (lists and numbers) or len(lists) > 1:
            yield path, at, f"struct {name}: " + " ".join(fields)


def switches(tree):
    """7: matches on bare numbers, and tables of functions."""
    for path, lines in tree.files.items():
        for at, line in enumerate(lines):
            if re.search(r"\bmatch \w.*\{$", line) and re.match(r"\s+\d+ =>", lines[at + 1]):
                yield path, at, line.strip()
    yield from tree.matching(r": \[?(fn\(|&dyn |Box<dyn )")


FINDERS = dict(zip(POINTS, (own_results, twins, index_loops, by_hand, repeated, buffers, switches)))


def main():
    args = argparse.ArgumentParser()
    args.add_argument("point", nargs="?", choices=list(POINTS))
    args.add_argument("--repo", default=".")
    given = args.parse_args()
    tree = Tree(given.repo)
    for point in given.point or POINTS:
        places = sorted(set(FINDERS[point](tree)))
        print(FINDERS[point].__doc__)
        for path, at, text in places:
            print(f"    {path}:{at + 1}: {text[:150]}")
        print(f"point {point}: {len(places)} places")


main()
