#!/usr/bin/env python3
"""Spells the repository's own definitions, fields and lemmas as today's Rattle does; run once, at the top, after port.py.

Words are in snake case. A dash stays where it joins two names of definitions, as in `costAt-length`; any other dash of a lemma's
name, and each dash of a field, becomes `_`. Names from Rattle source, types and facts keep their spelling. It goes over specs/, proofs/,
the clauses and comments of src/, the text of must-fail edits, and what stands in backticks in README.md and docs/.
"""
import glob
import re

TOKEN = re.compile(r"[^\s(){}\[\],;.«»|@`'\"]+(?:'+)?")
SIGNATURE = re.compile(r"\s*((?:(?:abbrev|unfoldable|pub)\s+)*)([^\s:(){}]+(?:\s+[^\s:(){}]+)*)\s+:(?:\s|$)")
# words of the library that name definitions, as far as lemmas here are named after them
LIBRARY = """length get_or set sets take drop append map filter replicate member reverse sum flatMap flat_map concat
head headD getD getLastD add mul sub div rem suc zero none some""".split()
# names that are in snake case already and would fall together with a definition in the same file
BESIDE = {
    "crates/map_writer/proofs/WrittenRecords.antt": {"put_lane": "put_lane_lem"},
    "crates/query/proofs/QueryUnderway.antt": {"no_key": "no_key_lem"},
    "crates/report/proofs/*.antt": {"too_long": "too_long_lem"},
    "crates/report/proofs/*/*.antt": {"too_long": "too_long_lem"},
    "crates/day/proofs/Promises.antt": {"too_long": "too_long_lem"},
}
# generated names, which a file of a function's proof declares
GENERATED = re.compile(r":\s*(?:tie|goal|need)\.")


def files():
    return sorted(glob.glob("crates/*/specs/**/*.antt", recursive=True) + glob.glob("crates/*/proofs/**/*.antt", recursive=True))


def declared():
    """Each name that an .antt file declares, and the names of definitions and of fields among them."""
    names, definitions, fields = set(), set(), set()
    for path in files():
        walked = path.endswith("/Proof.antt")
        mode = None
        for line in open(path, encoding="utf-8").read().split("\n"):
            if not line.strip() or line.lstrip().startswith("--"):
                continue
            if not line.startswith(" "):
                mode = None
            head = re.match(r"\s*(?:pub\s+)?(record|data|ruleset)\s+(\S+)", line)
            if head:
                mode = head.group(1)
                names.add(head.group(2))
                continue
            if re.match(r"\s*(use|mod|pub mod|module|open|let|in)\b", line) or GENERATED.search(line):
                continue
            found = SIGNATURE.match(line)
            if found:
                for name in found.group(2).split():
                    names.add(name)
                    if mode == "record" and line.startswith("  "):
                        fields.add(name)
                    elif "/specs/" in path or re.search("abbrev|unfoldable", found.group(1)):
                        definitions.add(name)
                    elif walked and "-" in name:
                        names.discard(name)
    return names, definitions, fields


def imported():
    """Names that come from the library."""
    found = set()
    for path in files() + sorted(glob.glob("crates/*/src/*.rt")):
        for root, items in re.findall(r"use ([^\s{]+)\.\{([^}]*)\}", open(path, encoding="utf-8").read()):
            own = re.match(r"Rattle\.([a-z_0-9]+)\.", root)
            if own and glob.glob(f"crates/{own.group(1)}"):
                continue
            found.update(item.strip().split(" as ")[0] for item in items.split(","))
    return found


def snake(word):
    word = re.sub(r"(?<=[a-z0-9])([A-Z])", lambda m: "_" + m.group(1).lower(), word)
    return re.sub(r"([A-Z])(?=[A-Z]|$)", lambda m: m.group(1).lower(), word)


def respelled(name, definitions, fields):
    parts = name.split("-")
    spelled = [part if part[:1].isupper() else snake(part) for part in parts]
    joins = all(p in definitions or p in LIBRARY for p in parts) and any(re.search("[A-Z]", p) or p in LIBRARY for p in parts)
    if len(parts) == 2 and name not in fields and joins:
        return "-".join(spelled)
    return "_".join(spelled)


def table():
    """The new spelling of each name. A lemma or a field that would be spelled as a definition beside it gets `_lem`."""
    names, definitions, fields = declared()
    library = imported()
    changes = {}
    for name in sorted(names):
        if not re.match(r"[a-z]", name) or name in library or not re.fullmatch(r"[A-Za-z0-9_\-'ᴰ₀-₉]+", name):
            continue
        new = respelled(name, definitions, fields)
        if new != name:
            changes[name] = new
    met = {}
    for old, new in changes.items():
        met.setdefault(new, []).append(old)
    words = {}
    for path in files():
        if not path.endswith("/Proof.antt"):
            words[path] = set(TOKEN.findall(re.sub(r"--.*", "", open(path, encoding="utf-8").read())))
    for new, olds in met.items():
        camel = [old for old in olds if "-" not in old]
        others = camel + ([new] if new in names else [])
        for old in olds:
            if "-" not in old or not others:
                continue
            together = any(old in there and any(c in there for c in camel) for there in words.values())
            if old != "sheet-bytes" and (old not in fields or together):
                changes[old] = new + "_lem"
    return changes, names


def turned(text, changes):
    return TOKEN.sub(lambda m: changes.get(m.group(0), m.group(0)), text)


def main():
    changes, names = table()
    met = {}
    for old, new in changes.items():
        met.setdefault(new, []).append(old)
    taken = set()
    for path in files() + sorted(glob.glob("crates/*/src/*.rt")):
        taken.update(TOKEN.findall(open(path, encoding="utf-8").read()))
    for new, olds in sorted(met.items()):
        if len(olds) > 1 or new in taken:
            print(f"falls together: {new} <- {' '.join(olds)}{' and a name that is there' if new in taken else ''}")
    for pattern, these in BESIDE.items():
        for path in glob.glob(pattern):
            text = open(path, encoding="utf-8").read()
            open(path, "w", encoding="utf-8").write(turned(text, these))
    camel = {old: new for old, new in changes.items() if re.search("[A-Z]", old)}
    for path in files() + sorted(glob.glob("crates/*/src/*.rt") + glob.glob("crates/*/must-fail/*.edit")):
        lines = []
        for line in open(path, encoding="utf-8").read().split("\n"):
            comment = line.lstrip().startswith(("--", "//", "# "))
            lines.append(turned(line, camel if comment else changes))
        open(path, "w", encoding="utf-8").write("\n".join(lines))
    for path in ["README.md"] + sorted(glob.glob("docs/**/*.md", recursive=True)):
        text = open(path, encoding="utf-8").read()
        text = re.sub(r"`[^`\n]+`", lambda m: turned(m.group(0), changes), text)
        open(path, "w", encoding="utf-8").write(text)
    print(f"respelled: {len(changes)} names")


if __name__ == "__main__":
    main()
