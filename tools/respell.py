#!/usr/bin/env python3
"""Brings the names of this repository's own definitions and laws to today's spelling: words in snake case.

usage: python3 tools/respell.py, once, at the top, after port.py. A law that would fall together with a definition gets _lem.
"""
import glob
import os
import re

NAME = re.compile(r"(?<![\w'\-#◌→≤<])[A-Za-z_][\w'\-#◌→≤]*")
DECLARED = re.compile(r"^\s*(?:abbrev\s+|unfoldable\s+|pub\s+|record\s+|data\s+|ruleset\s+)*([^\s({]+)(?:\s+[({].*)?\s+:(?:\s(.*)|$)")
USED = re.compile(r"(?m)^\s*(?:ghost )?use ([^\s;{]+)\.\{([^}]*)\}")
# a law of one crate that port.py gave the spelling of another crate's or its own definition
APART = {"basin": {"sub_part": "sub_part_lem"}, "rains": {"in_use": "in_use_lem"}}
OTHER = {"is-nan": "is_nan_lem", "slice-ty": "slice_type"}


def snake(name):
    parts = []
    for part in name.split("-"):
        lower = re.sub(r"([a-z0-9])([A-Z])", lambda m: m.group(1) + "_" + m.group(2).lower(), part)
        parts.append(part if part[:1].isupper() else lower)
    return "_".join(parts)


def declared():
    found = set()
    for path in glob.glob("crates/*/specs/**/*.antt", recursive=True) + glob.glob("crates/*/proofs/**/*.antt", recursive=True):
        for line in open(path, encoding="utf-8"):
            m = DECLARED.match(line.rstrip("\n"))
            if not m or line.strip().startswith(("--", "→")):
                continue
            kind = m.group(2) or ""
            if path.endswith("Proof.antt") and (kind.startswith("tie.") or "statement" in kind):
                continue
            found.add(m.group(1))
    return found


def table():
    names = declared()
    camel = {n for n in names if re.search("[a-z0-9][A-Z]", n) and not n[0].isupper()}
    taken = {snake(n) for n in camel} | {n for n in names if snake(n) == n}
    to = {}
    for n in sorted(names):
        new = snake(n)
        if new == n or not n.isascii():
            continue
        to[n] = OTHER.get(n) or (new if n in camel or new not in taken else new + "_lem")
    return to


def turned(text, to):
    def name(m):
        new = to.get(m.group(0), m.group(0))
        # behind a dot stands a field, which is no law
        return snake(m.group(0)) if new.endswith("_lem") and m.string[: m.start()].endswith(".") else new

    def quoted(m):
        return "`" + NAME.sub(name, m.group(1)) + "`"

    lines = []
    for line in text.split("\n"):
        at = re.search(r"(^|\s)(--|//)(\s|$)", line)
        code, note = (line[: at.start()], line[at.start() :]) if at else (line, "")
        lines.append(NAME.sub(name, code) + re.sub(r"`([^`]*)`", quoted, note))
    return "\n".join(lines)


def main():
    to = table()
    own = set(os.listdir("crates"))
    for path in sorted(glob.glob("crates/*/**/*", recursive=True)):
        if not path.endswith((".antt", ".rt", ".edit")) or "/out/" in path:
            continue
        text = open(path, encoding="utf-8").read()
        here = to | APART.get(path.split("/")[1], {})
        for module, names in USED.findall(text):
            crate = re.match(r"Rattle\.(\w+)", module)
            if not crate or crate.group(1) not in own:
                for n in names.split(","):
                    here.pop(n.split(" as ")[0].strip(), None)
        new = turned(text, here)
        if new != text:
            open(path, "w", encoding="utf-8").write(new)
    for old, new in sorted(to.items()):
        print(f"{old} {new}")


if __name__ == "__main__":
    main()
