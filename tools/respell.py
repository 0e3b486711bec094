#!/usr/bin/env python3
"""Respells the repository's own definitions, lemmas and fields of records: words in snake case, types in camel case, and a dash only
where it joins two names. usage: tools/respell.py [--list], at the top of the repository, once, after the kit's port.py. It goes by text: a
name is a whole token of an .antt file, of a clause or a `ghost use` of an .rt file, of an .edit file, or between backticks in a page of
docs/ and README.md; behind a dot only a field turns, or a word of a module that the file takes by `as`; in those pages
all words turn.
Functions of src/ keep their names, and so does all else of src/. A definition may have its function's name; a lemma that would have the
name of another word gets `_lem`.
"""

import os
import re
import sys

NAME = r"[\w'₀-₉ℕℤ≡≢≤∷⊎⊥→+*∙\-]+"
TOKEN = re.compile(NAME)
DECLARED = re.compile(r"^\s*(?:abbrev |unfoldable )?(?:pub )?(?:abbrev |unfoldable )?(?:pub )?(" + NAME + r") ?:(?: |$)")
TYPE = re.compile(r"^\s*(?:pub )?(?:record|data) (" + NAME + ")")
USE = re.compile(r"^\s*(?:ghost |pub )?use ([^;{]*)\.\{([^}]*)\}")

# words that a dash may join to another name: those of the library, where a lemma here speaks of them
LIBRARY = {"length", "drop", "take", "append", "replicate", "get_or", "set", "paste", "min", "neg"}

# where the rule gives no good name, or one that is taken
BY_HAND = {
    "A-1": "a_1",
    "C-3": "c_3",
    "C-4": "c_4",
    "bufferSize": "buffer_entries",
    "oneMore": "one_call_more",
}


def files(ends):
    for folder, dirs, names in os.walk("crates"):
        dirs[:] = sorted(d for d in dirs if d != "out")
        for n in sorted(names):
            if n.endswith(ends):
                yield os.path.join(folder, n)


def declared():
    """The names that the repository declares outside its walks: functions and lemmas, types, fields; and those that it takes from elsewhere."""
    own, types, fields, foreign = {}, set(), set(), set()
    for path in files(".antt"):
        inside = None
        if path.endswith("Proof.antt"):
            continue
        for line in open(path, encoding="utf-8"):
            m = USE.match(line)
            if m:
                if not re.match(r"Rattle\.(?!std\b)", m[1]):
                    foreign |= {w.split(" as ")[0].strip() for w in m[2].split(",")}
                continue
            if line.startswith("--") or not line.strip():
                continue
            t = TYPE.match(line)
            if t:
                types.add(t[1])
                inside = len(line) - len(line.lstrip())
                continue
            deep = len(line) - len(line.lstrip())
            if inside is not None and deep <= inside:
                inside = None
            m = DECLARED.match(line)
            if not m or line.strip().startswith("let "):
                continue
            if inside is not None:
                fields.add(m[1])
            else:
                own.setdefault(m[1], set()).add(path.split("/")[1])
    return own, types, fields, foreign


def snake(word):
    word = re.sub(r"^getD", "get_or", word)
    return re.sub(r"(?<=[a-z0-9])([A-Z])", lambda m: "_" + m[1].lower(), word)


def spelled(name, known, field):
    if name in BY_HAND:
        return BY_HAND[name]
    if name[0].isupper() or not re.search(r"-|[a-z0-9][A-Z]", name):
        return name
    parts = [snake(p) for p in name.split("-")]
    out = parts[0]
    for left, right in zip(parts, parts[1:]):
        out += ("-" if not field and left in known and right in known else "_") + right
    return re.sub(r"_([A-Z])$", lambda m: "_" + m[1].lower(), out)


def table():
    """Two tables, of words and of fields, and what would fall together."""
    own, types, fields, foreign = declared()
    known = LIBRARY | {snake(n) for n in own if re.search(r"[a-z][A-Z]", n)}
    stays = foreign | types
    in_src = set()
    for path in files(".rt"):
        in_src |= set(re.findall(r"\bfn (\w+)", open(path, encoding="utf-8").read()))
    first = {n: spelled(n, known, False) for n in own if n not in stays and not n.startswith("◌")}
    held = {}
    for old, new in first.items():
        held.setdefault(new, set()).add(old)
    words, bad = {}, []
    for old, new in sorted(first.items()):
        lemma = "-" in old
        if lemma and (len(held[new]) > 1 or new in in_src or new in foreign):
            new += "_lem"
        elif not lemma and new != old and any("-" not in o for o in held[new] - {old}):
            bad.append((old, new))
        if new != old:
            words[old] = new
    for new in set(words.values()):
        if sum(v == new for v in words.values()) > 1 or new in foreign or (new in own and new not in words):
            bad.append((new, [o for o in words if words[o] == new]))
    parts = {n: spelled(n, known, True) for n in fields}
    parts = {a: b for a, b in parts.items() if a != b}
    for new in set(parts.values()):
        if sum(v == new for v in parts.values()) > 1:
            bad.append(("field " + new, [o for o in parts if parts[o] == new]))
    for both in set(words) & set(parts):
        if words[both] != parts[both]:
            bad.append(("word and field", both, words[both], parts[both]))
    return words, parts, bad


def in_source(text, turn):
    """Turns only clauses, ghost items and attributes of a source file."""
    out, clause, depth = [], False, 0
    for line in text.split("\n"):
        bare = line.strip()
        if bare.startswith("//"):
            out.append(line)
            continue
        starts = re.match(r"(?:requires|ensures|ghost)\b", bare)
        if starts and not clause:
            clause, depth = True, 0
        if clause:
            depth += bare.count("{") - bare.count("}")
            out.append(turn(line))
            if depth <= 0 and ("}" in bare or bare.endswith(";")):
                clause = False
        else:
            out.append(line)
    return "\n".join(out)


def main(argv):
    if not os.path.isdir("crates"):
        raise SystemExit("respell: run it at the top of the repository")
    words, parts, bad = table()
    if "--list" in argv:
        for old, new in [*words.items(), *parts.items()]:
            print(old, new)
        for it in bad:
            print("clash:", *it)
        return

    def named(m):
        return words.get(m[0], parts.get(m[0], m[0]))

    modules = set()

    def name(m):
        if m.start() and m.string[m.start() - 1] == ".":
            before = re.search(r"([\w\-]+)\.$", m.string[: m.start()])
            if before and before[1] in modules:
                return named(m)
            return parts.get(m[0], m[0])
        return named(m)

    turn = lambda s: TOKEN.sub(name, s)
    for path in files((".antt", ".rt", ".edit")):
        old = open(path, encoding="utf-8").read()
        modules.clear()
        modules.update(re.findall(r"^use Rattle\.[\w.]+ as (\w+)$", old, re.M))
        if path.endswith(".rt"):
            new = in_source(old, turn)
        else:
            new = "\n".join(turn(l) if not l.startswith("file:") else l for l in old.split("\n"))
        if new != old:
            open(path, "w", encoding="utf-8").write(new)
    for path in ["README.md", *(os.path.join("docs", n) for n in sorted(os.listdir("docs")) if n.endswith(".md"))]:
        old = open(path, encoding="utf-8").read()
        new = re.sub(r"`[^`\n]+`", lambda m: TOKEN.sub(named, m[0]), old)
        if new != old:
            open(path, "w", encoding="utf-8").write(new)
    print(f"respell: {len(words)} words and {len(parts)} fields")


main(sys.argv[1:])
