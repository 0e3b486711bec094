#!/usr/bin/env python3
"""forms.py [POINT]: lists the places in crates/*/src at which docs/DESIGN-PASS.md looks, point by point, with the count of each list.

It goes by text. It finds candidates, and which of them are places of a point is judged in the page."""
import collections
import difflib
import pathlib
import re
import sys

ROOT = pathlib.Path(__file__).resolve().parent.parent
FILES = sorted(ROOT.glob("crates/*/src/**/*.rt"))


def functions(path):
    """(line, name, parameters, clauses, body) of each function of a file."""
    lines = path.read_text().split("\n")
    i = 0
    while i < len(lines):
        head = re.match(r'\s*(?:pub(?:\([a-z]+\))? )?(?:extern "C" )?fn ([a-z_0-9]+)', lines[i])
        if not head:
            i += 1
            continue
        start = i
        signature = []
        while not re.search(r"(^|\s)\{$", lines[i]):
            signature.append(lines[i])
            i += 1
        signature.append(lines[i].removesuffix("{"))
        indent = len(lines[start]) - len(lines[start].lstrip())
        body = []
        while not lines[i].startswith(" " * indent + "}"):
            i += 1
            body.append(lines[i])
        text = "\n".join(signature)
        clauses = re.findall(r"^\s*(requires|ensures)\s*([a-z_0-9]*)\s*\{ (.*) \}$", text, re.M)
        front = re.split(r"\n\s*(?:requires|ensures|where)\b", text)[0]
        inside = re.search(r"\((.*)\)", front.replace("\n", " "), re.S)
        given = re.findall(r"(?:mut )?([a-z_0-9]+): (&?(?:mut )?[^,()]+(?:<[^>]*>)?)", inside.group(1) if inside else "")
        yield start + 1, head.group(1), [(n, t.strip()) for n, t in given], clauses, body
        i += 1


def at(path, line):
    return f"{path.relative_to(ROOT / 'crates')}:{line}".replace("/src", "")


def grep(pattern, files=FILES):
    return [
        f"{at(path, k)}: {line.strip()}"
        for path in files
        for k, line in enumerate(path.read_text().split("\n"), 1)
        if re.search(pattern, line) and not line.lstrip().startswith("//")
    ]


def everywhere():
    return [(path, *f) for path in FILES for f in functions(path)]


def parts(clause):
    """The facts of a clause that stand side by side."""
    out, depth, last = [], 0, ""
    for word in re.split(r"( × |[()])", clause):
        depth += (word == "(") - (word == ")")
        if word == " × " and depth == 0:
            out.append(last)
            last = ""
        else:
            last += word
    out.append(last)
    return [p.strip() if not re.fullmatch(r"\([^()]*\)", p.strip()) else p.strip()[1:-1] for p in out]


def repeated_facts():
    seen = collections.defaultdict(set)
    for path, line, name, _, clauses, _ in everywhere():
        for kind, _, clause in clauses:
            for fact in parts(clause):
                if kind == "requires" and len(fact) > 9:
                    seen[fact].add(f"{path.parts[-3]}::{name}")
    return [f"{len(w)} {fact}: {', '.join(sorted(w))}" for fact, w in sorted(seen.items()) if len(w) > 2]


def travelling():
    """Three parameters, by name and type, that stand together in three or more functions; the largest sets."""
    sets = collections.defaultdict(set)
    all_given = [(f"{p.parts[-3]}::{n}", frozenset(g)) for p, _, n, g, _, _ in everywhere()]
    for _, a in all_given:
        for _, b in all_given:
            both = a & b
            if len(both) > 2:
                sets[both] = {n for n, g in all_given if both <= g}
    kept = {s: w for s, w in sets.items() if len(w) > 2}
    largest = [s for s in kept if not any(s < t and kept[s] == kept[t] for t in kept)]
    return [f"{len(kept[s])} {', '.join(sorted(n for n, _ in s))}: {', '.join(sorted(kept[s]))}" for s in sorted(largest, key=str)]


def lengths_beside():
    out = []
    for path, line, name, given, _, _ in everywhere():
        slices = [n for n, t in given if re.match(r"&(mut )?\[", t)]
        counts = [n for n, t in given if t in ("usize", "u32") and re.fullmatch(r"n|count|size|len|in_len|in_n|k|to|at|held|filt_len|.*_len|length", n)]
        if slices and counts:
            out.append(f"{at(path, line)}: {name}({', '.join(slices)}; {', '.join(counts)})")
    return out


def copied_fields():
    out = []
    for path, line, name, _, _, body in everywhere():
        same = [l for l in body if re.match(r"\s+([a-z_0-9]+): [a-z]+\.([a-z_0-9]+),$", l) and re.match(r"\s+([a-z_0-9]+): [a-z]+\.\1,$", l)]
        if len(same) > 3:
            out.append(f"{at(path, line)}: {name} copies {len(same)} fields")
    return out


def lesser():
    text = [(p, l, n, " ".join(b)) for p, l, n, _, _, b in everywhere()]
    return [f"{at(p, l)}: {n}" for p, l, n, b in text if re.search(r"if (\S+) <=? (\S+) \{\s*(\1|\2|return (\1|\2);)\s*\} else \{\s*(\1|\2)", b) or re.search(r"if ([a-z_.]+) <=? ([a-z_.]+) \{\s*return (\1|\2);\s*\}\s*(\1|\2)\s*\}", b)]


def switches():
    return [f"{at(p, l)}: {n}" for p, l, n, _, _, b in everywhere() if re.search(r"match ", " ".join(b)) and len(re.findall(r"=> \{?\s*[a-z_:]+\(", " ".join(b))) > 1]


def codes():
    return grep(r"^\s*(pub )?const [A-Z_0-9]+: (u8|u16|u32|u64|usize) =")


def answers():
    files = sorted(ROOT.glob("crates/*/proofs/**/Answers.antt"))
    given = sum(len(re.findall(r"^pub [a-zA-Z0-9_+-]+ :", f.read_text(), re.M)) for f in files)
    lemmas = collections.Counter(
        (m.group(1), f.relative_to(ROOT / "crates").parts[0])
        for f in ROOT.glob("crates/*/proofs/*.antt")
        for m in re.finditer(r"^(?:pub |abbrev |unfoldable )*([^\s:={(]+) :", f.read_text(), re.M)
    )
    names = collections.defaultdict(list)
    for (name, crate), _ in lemmas.items():
        names[name].append(crate)
    twice = [f"{n}: {', '.join(sorted(c))}" for n, c in sorted(names.items()) if len(c) > 1]
    return [f"{len(files)} files Answers.antt with {given} answers", f"{sum(lemmas.values())} lemmas in files of proofs/"] + twice


def twins():
    """Functions of one crate whose bodies are nearly the same but for names, numbers and types."""
    shapes = []
    for path, _, name, _, _, body in everywhere():
        tokens = re.findall(r"[A-Za-z_0-9.]+|\S", " ".join(l for l in body if not l.lstrip().startswith("//")))
        if len(tokens) > 24:
            shapes.append((path.parts[path.parts.index("src") - 1], name, ["x" if t[0].isalnum() else t for t in tokens]))
    return [
        f"{a[0]}: {a[1]}, {b[1]}"
        for i, a in enumerate(shapes)
        for b in shapes[i + 1 :]
        if a[0] == b[0] and a[1] != b[1] and difflib.SequenceMatcher(None, a[2], b[2], False).ratio() > 0.85
    ]


POINTS = [
    ("1 enums", lambda: grep(r"^\s*(pub )?enum ")),
    ("1 fields that are flags", lambda: grep(r"^\s+(pub )?[a-z_]+: bool,$")),
    ("1 constants that are whole numbers", codes),
    ("2 pairs of functions with nearly one body", twins),
    ("3 while and loop", lambda: grep(r"^\s*(while|loop)\b")),
    ("3 for over numbers", lambda: grep(r"^\s*for \S+ in .*\.\.")),
    ("4 fields copied by hand", copied_fields),
    ("4 the lesser or the larger by hand", lesser),
    ("5 facts asked for by three or more", repeated_facts),
    ("5 parameters that travel together", travelling),
    ("6 a slice and a number beside it", lengths_beside),
    ("6 arrays by a number as an index", lambda: grep(r"\b(kept|numbers)\[[A-Z0-9_]+\]")),
    ("7 switches that pick a call", switches),
    ("8 proofs", answers),
]


def main():
    wanted = sys.argv[1:]
    for name, find in POINTS:
        if wanted and name.split()[0] not in wanted:
            continue
        found = find()
        print(f"{name}: {len(found)}")
        for line in found:
            print(f"    {line}")


main()
