#!/usr/bin/env python3
"""Respells the repository's own names of specs/ and proofs/: words in snake case, types in camel case, a prime as an apostrophe.

usage: python3 tools/respell.py            at the top of the repository: rewrites every .antt and .rt file and every edit below crates/
       python3 tools/respell.py --list     prints the old and new names, and the new names that something else bears already

A name is the repository's own where a file of specs/ or proofs/ declares it, or binds it. Names that an operator ends keep the dash before it.
Functions of src/, strings and the names of the library stay as they are.
"""

import collections
import glob
import os
import re
import sys

WORD = r"[^\s.,;:(){}\[\]«»·←↦|]"
DECLARED = re.compile(r"^(?P<indent>\s*)(?:abbrev |unfoldable )?(?:pub )?(?:abbrev |unfoldable )?(?P<name>[^\s:(){}]+) : (?P<type>.*)$")
TYPE = re.compile(r"^\s*(?:abbrev )?(?:pub )?(?:record|data) (?P<name>\S+)")
BINDER = re.compile(r"(?:λ|\(|\blet\b)\s*((?:[^\s(){}λ.:,]+\s+)*[^\s(){}λ.:,]+)\s*[.:=]")
GENERATED = re.compile(r"^(goal|given|need)\.")
KIT = os.environ.get("RATTLE_KIT", "/opt/rattle/rattle")
# what is spelled otherwise than by its dashes alone
ODD = {"Room-after": "room_after", "sumBy": "sum_by", "getD": "get_or", "countBy": "count_by"}
# names that would fall together with a parameter of the crate's own functions
APART = {("days", "pre-call"): "in_pre_call"}


def files(*ends):
    return sorted(p for p in glob.glob("crates/**/*", recursive=True) if os.path.isfile(p) and p.endswith(ends) and "/out/" not in p)


def read(path):
    with open(path, encoding="utf-8") as f:
        return f.read()


def spelled(name):
    """The name in today's spelling."""
    name = ODD.get(name, name.replace("′", "'"))
    head, operator = (name.rsplit("-", 1) + [""])[:2] if re.search(r"-[^\w'-]+$", name) else (name, "")
    words = [ODD.get(w, w) for w in head.split("-")]
    if head[:1].isupper():
        new = "".join(w[:1].upper() + w[1:] for w in words)
    else:
        new = "_".join(words)
    return new + ("-" + operator if operator else "")


def library():
    """The names of the kit's own library that have a dash."""
    found = set()
    for top in ("std", "core", "std_alloc", "std_heap", "std_io", "std_collections", "logic", "antt"):
        for p in glob.glob(os.path.join(KIT, top, "**", "*.antt"), recursive=True):
            for line in read(p).splitlines():
                m = DECLARED.match(line)
                if m and "-" in m["name"]:
                    found.add(m["name"])
    return found


def ghost_parts(path, text):
    """The text in parts, each with whether names in it are to be turned: no comment, and no string of src/."""
    if path.endswith(".antt"):
        cut = r'(?m)(--[ \t].*$|--$|"[^"\n]*")'
    elif path.endswith(".rt"):
        cut = r'(?m)(//.*$|"(?:[^"\\]|\\.)*")'
    else:
        return [(text, True)]
    return [(part, i % 2 == 0) for i, part in enumerate(re.split(cut, text))]


def own():
    """The names that the repository declares or binds, and that are spelled otherwise today."""
    found = collections.OrderedDict()
    for p in files(".antt"):
        for line in read(p).splitlines():
            m = TYPE.match(line) or DECLARED.match(line)
            if m and not GENERATED.match(m.groupdict().get("type") or ""):
                found[m["name"]] = True
    return {n: spelled(n) for n in found if spelled(n) != n and not n.startswith("-")}


def bound():
    """The variables of λ and of signatures that have a dash or a prime."""
    found = {}
    for p in files(".antt", ".rt"):
        for m in BINDER.finditer(read(p)):
            for n in m[1].split():
                if re.fullmatch(r"[a-z][\w'′-]*[\w'′]|\w+′|Room-after", n) and spelled(n) != n and not n.startswith("returns-"):
                    found[n] = spelled(n)
    return found


def taken():
    """The words that something else bears: in src/ outside of ghost text, and in specs/ and proofs/."""
    words = collections.Counter()
    for p in files(".antt", ".rt"):
        words.update(re.findall(r"[\w'′-]+", read(p)))
    return words


def main(argv):
    library_names = library()
    names = {**{n: s for n, s in bound().items() if n not in library_names}, **own()}
    if "--list" in argv:
        words = taken()
        for n in sorted(names):
            print(n, names[n], "TAKEN" if words[names[n]] else "")
        back = collections.defaultdict(list)
        for n in names:
            back[names[n]].append(n)
        for n, olds in back.items():
            if len(olds) > 1:
                print("TOGETHER", n, olds)
        return 0
    either = "|".join(re.escape(n) for n in sorted(names, key=len, reverse=True))
    pattern = re.compile(r"(?<![\w'′.-])(" + either + r")(?![\w'′-])|(?<=\.)(" + either + r")(?![\w'′-])")
    changed = 0
    for p in files(".antt", ".rt", ".edit"):
        old = read(p)
        crate = p.split("/")[1]

        def turned(m):
            n = m[1] or m[2]
            return APART.get((crate, n), names[n])

        new = "".join(pattern.sub(turned, part) if ghost else part for part, ghost in ghost_parts(p, old))
        if new != old:
            with open(p, "w", encoding="utf-8") as f:
                f.write(new)
            changed += 1
    print(f"respell: {len(names)} names, {changed} files")
    return 0


if __name__ == "__main__":
    raise SystemExit(main(sys.argv[1:]))
