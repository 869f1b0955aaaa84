#!/usr/bin/env python3
"""Brings the repository's own names in specs/ and proofs/ to snake case: definitions, lemmas, constructors and fields.

usage: tools/respell.py        at the top of a checkout, once, after the kit's port.py

Types and modules keep their capitals, and what src/ declares keeps its names. A lemma that would get the name of the definition that it
speaks of gets `_lem` after it. The names in must-fail/, README.md and docs/ follow. It prints each pair of names that would fall together.
"""

import collections
import glob
import os
import re
import sys

WORD = re.compile(r"[^\s(){}.;,@\"«»\[\]\\`|:]+")
SIGNED = re.compile(r"^\s*(?:(?:abbrev|unfoldable|pub|record|data)\s+)*((?:[^\s(){}:]+ )+):( |$)")
GOAL = re.compile(r":\s+(?:tie\.|statement |\{M : Type 1\} → statement)")
# Lemmas that port.py has turned by now, whose name a definition gets too, by the folders where the name is the lemma's.
LATE = {"kept_of": "crates/capi_demands/", "one_bit": "crates/image/", "turned_on": "crates/demands/", "nine_words": "crates/capi_give/"}


def antt():
    return sorted(glob.glob("crates/*/specs/**/*.antt", recursive=True) + glob.glob("crates/*/proofs/**/*.antt", recursive=True))


def is_old(name):
    return not name[0].isupper() and ("-" in name[1:] or re.search(r"[a-z0-9][A-Z]", name)) and re.fullmatch(r"[A-Za-z0-9_'-]+", name)


def snake(name):
    return re.sub(r"(?<=[a-z0-9])([A-Z])", lambda m: "_" + m[1].lower(), name.replace("-", "_"))


def owned(files):
    """The names that the files declare: old ones to turn, and all."""
    old, every = set(), collections.defaultdict(set)
    for path in files:
        for line in open(path, encoding="utf-8"):
            m = SIGNED.match(line)
            if not m or line.lstrip().startswith(("--", "let ", "use ", "λ", "→", "elim", "in ")) or GOAL.search(line):
                continue
            for name in m[1].split():
                if name not in ("abbrev", "unfoldable", "pub", "record", "data"):
                    every[name].add(path)
                    if is_old(name) and not name.endswith(("-spec", "_spec")):
                        old.add(name)
    return old, every


def turned(name, path, old):
    if name in LATE and (not path.startswith("crates/") or path.startswith(LATE[name])):
        return name + "_lem"
    return old.get(name, name)


def in_text(text, path, old):
    return WORD.sub(lambda m: turned(m[0], path, old), text)


def in_prose(text, path, old):
    """Names with a dash are words of prose too, so they turn only between backticks."""
    camel = {n: to for n, to in old.items() if "-" not in n}
    parts = re.split(r"(`[^`\n]*`)", text)
    return "".join(in_text(p, path, old if p.startswith("`") else camel) for p in parts)


def in_source(text, path, old, mark):
    out = []
    for line in text.split("\n"):
        at = line.find(mark)
        if at < 0:
            out.append(in_text(line, path, old))
        else:
            out.append(in_text(line[:at], path, old) + in_prose(line[at:], path, old))
    return "\n".join(out)


def in_edit(text, path, old):
    """An edit's first lines have the places that refuse it, up to a colon, and then prose."""
    head = re.compile(r"^(# \w+, refused at )([^:\n]*)(:.*)$")
    out = []
    for line in text.split("\n"):
        m = head.match(line)
        if m:
            out.append(m[1] + in_text(m[2], path, old) + in_prose(m[3], path, old))
        else:
            out.append(in_prose(line, path, old) if line.startswith("#") else in_text(line, path, old))
    return "\n".join(out)


def main():
    if not os.path.isdir("crates"):
        raise SystemExit("respell: run it at the top of the repository")
    files = antt()
    own, every = owned(files)
    groups = collections.defaultdict(set)
    for name in own:
        groups[snake(name)].add(name)
    old = {}
    for name, froms in sorted(groups.items()):
        both = froms | ({name} if name in every else set())
        if len(both) > 1:
            print("together:", name, sorted(both), sorted({p for n in both for p in every[n]}))
        for it in froms:
            old[it] = name + "_lem" if len(both) > 1 and "-" in it else name
    # Edits and pages have names as the older form had them, also those that port.py has turned by now.
    words = set(every) | set(old.values())
    pages = sorted(glob.glob("docs/*.md") + glob.glob("docs/landings/*.md") + ["README.md", "CONTRIBUTING.md"])
    edits = sorted(glob.glob("crates/*/must-fail/*.edit"))
    for path in files + sorted(glob.glob("crates/*/src/**/*.rt", recursive=True)) + edits + pages:
        with open(path, encoding="utf-8") as f:
            text = f.read()
        if path.endswith(".antt"):
            fresh = in_source(text, path, old, "--")
        elif path.endswith(".rt"):
            fresh = in_source(text, path, old, "//")
        else:
            late = {t: snake(t) for t in WORD.findall(text) if is_old(t) and snake(t) in words} | old
            fresh = in_edit(text, path, late) if path.endswith(".edit") else in_prose(text, path, late)
        if fresh != text:
            with open(path, "w", encoding="utf-8") as f:
                f.write(fresh)
    return 0


if __name__ == "__main__":
    sys.exit(main())
