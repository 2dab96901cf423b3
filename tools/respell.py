#!/usr/bin/env python3
"""Spells the repository's own definitions, fields, constructors and lemmas in snake case, as the library spells its own.

usage: tools/respell.py [--check]    at the top of the repository, once, after port.py

A name is turned where a file of specs/ or a lemma file of proofs/ declares it. Names that would fall together get the spelling
of APART. Code, strings, inputs and outputs keep their names; of comments only code spans and names in camel case are turned.
"""
import os
import re
import sys

WORD = re.compile(r'[^\s(){}.;,@"«»\[\]]+')
# names that would fall together with a definition or a library's name
APART = {"parent-in": "parent_in_law", "tag-of": "tag_of_handed"}
# lemmas in snake case already, whose definition is so spelled now
LAWS = {
    "group_at": ("wire/proofs/Facts", "meaning/proofs/Readable"),
    "list_read": ("claim_records/proofs/ListKinds", "claim_records/proofs/body/take_claim/Proof"),
    "read_names": ("wire/proofs/RoundTripSheet",),
    "written_over": ("range_reply/proofs/InPlace", "range_reply/proofs/Planned"),
}


def snake(name):
    words = re.sub(r"(?<=[a-z0-9₀-₉])[A-Z]", lambda m: "_" + m[0].lower(), name)
    return re.sub(r"(?<=[^-])-(?=[^-])", "_", words)


def files(*ends):
    for folder, dirs, names in os.walk("crates"):
        dirs[:] = sorted(d for d in dirs if d != "out")
        for n in sorted(names):
            if n.endswith(ends):
                yield os.path.join(folder, n)


def is_walk(path):
    return os.path.basename(path) == "Proof.antt"


HEAD = re.compile(
    r"(?m)^(?:(?:unfoldable|abbrev|opaque|private|pub|ruleset) )*([^\s(){}.;,@\"«»]+)(?: \{[^{}\n]*\})* :|^(?:(?:unfoldable|abbrev|pub|record|data|ruleset) )+([^\s(){}.;,@\"«»]+)"
    r"|^  +(?:(?:unfoldable|abbrev|pub) )*([^\s(){}.;,@\"«»λ]+) :(?=\s)"
)


def declared():
    found = {}
    for path in files(".antt"):
        if is_walk(path):
            continue
        text = re.sub(r"--[^\n]*", "", open(path, encoding="utf-8").read())
        for m in HEAD.finditer(text):
            name = m[1] or m[2] or m[3]
            if name and name not in ("use", "pub", "mod", "record", "data", "let", "in"):
                found.setdefault(name, set()).add(path)
    return found


def table():
    found = declared()
    out = {}
    for name in found:
        if re.match(r"[a-z]", name) and snake(name) != name:
            out[name] = APART.get(name, snake(name))
    # a lemma gives way to the definition that it speaks of
    definitions = {new for old, new in out.items() if "-" not in old}
    for old, new in out.items():
        if "-" in old and new in definitions:
            out[old] = new + "_law"
    return out, found


def turn(text, names):
    return WORD.sub(lambda m: names.get(m[0], m[0]), text)


def camel(text, names):
    return WORD.sub(lambda m: names[m[0]] if m[0] in names and "-" not in m[0] and m[0] != m[0].lower() else m[0], text)


def comment(text, names):
    parts = re.split(r"(`[^`\n]*`)", text)
    return "".join(turn(p, names) if i % 2 else camel(p, names) for i, p in enumerate(parts))


def antt(text, names):
    parts = re.split(r'((?<![^\s(){}.;,@"])--[^\n]*)', text)
    return "".join(comment(p, names) if i % 2 else turn(p, names) for i, p in enumerate(parts))


def rt(text, names):
    parts = re.split(r'(//[^\n]*|"(?:\\.|[^"\\\n])*")', text)
    only = {a: b for a, b in names.items() if "-" not in a}
    return "".join(
        (comment(p, only) if p.startswith("//") else p) if i % 2 else re.sub(r"[A-Za-z_][\w']*", lambda m: only.get(m[0], m[0]), p)
        for i, p in enumerate(parts)
    )


def main(argv):
    names, found = table()
    check = "--check" in argv
    if check:
        taken = {}
        for path in files(".antt"):
            text = re.sub(r"--[^\n]*", "", open(path, encoding="utf-8").read())
            words = set(WORD.findall(text))
            for old in words & names.keys():
                new = names[old]
                if new in words:
                    taken.setdefault((old, new), []).append(path)
        back = {}
        for a, b in names.items():
            back.setdefault(b, []).append(a)
        for b, olds in sorted(back.items()):
            if len(olds) > 1:
                print("together:", b, olds, [sorted(found[o]) for o in olds])
        for (old, new), paths in sorted(taken.items()):
            print("taken:", old, new, len(paths), paths[:3], "declared" if new in found else "", sorted(found.get(new, []))[:2])
        print(len(names), "names")
        return
    for path in files(".antt", ".rt"):
        with open(path, encoding="utf-8") as f:
            text = f.read()
        here = names | {law: law + "_law" for law, at in LAWS.items() if path[len("crates/") : -len(".antt")] in at}
        new = antt(text, here) if path.endswith(".antt") else rt(text, here)
        if new != text:
            with open(path, "w", encoding="utf-8") as f:
                f.write(new)


if __name__ == "__main__":
    main(sys.argv[1:])
