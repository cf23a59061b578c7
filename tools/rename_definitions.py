#!/usr/bin/env python3
"""Spells the names of the repository's own definitions and laws as Rattle does today: in snake case.

Run once, at the top, on what the kit's port script left. It reads every name that a file of specs/ or proofs/ gives
(and every alias of an import) that has a dash or a capital inside, and writes it with underscores in every file of
specs/, proofs/ and src/, in the must-fail edits, and between backticks in the pages. Names of types and modules,
functions of src/, strings, inputs and outputs keep their spelling. It stops before it writes anything where two names
would fall together.
"""
import glob
import re
import sys

WORD = r"[^\W\d][\w'′]*(?:-[\w'′]+)*"
TOKEN = re.compile(r"(?<![\w'′])" + WORD)
IMPORT = re.compile(r"^use ([^\n{]*)(\{[^}]*\})?", re.M)
ALIAS = re.compile(r" as (" + WORD + ")")
PROOF = "/Proof.antt"
# Names of the logic's own that an own name is made of.
INSIDE = {"getD": "get_or"}
# Laws whose name the port script had spelled as the definition that they are about is spelled now.
LAWS = {n: n + "_lem" for n in ("goes_by", "goes_on", "out_of_range", "read_answer", "read_no", "told_of")}
# Functions of src/ that share their name with the definition that their contract cites.
SHARED = {"heard_from", "is_letter", "is_told", "line_end", "power_on", "record_of", "role_of"}
# Laws with dashes beside a definition with capitals that would be spelled alike: a law gets _lem.
BESIDE = set()
# Libraries of the kit, by their paths.
KIT = ("Rattle.std", "Rattle.bytes", "Rattle.io", "Rattle.core")


def odd(name):
    return name[0].islower() and ("-" in name or re.search(r"[a-z0-9][A-Z]", name) is not None)


def snake(name):
    if name in LAWS:
        return LAWS[name]
    if name in BESIDE:
        return snake_plain(name) + "_lem"
    return snake_plain(name)


def snake_plain(name):
    for old, new in INSIDE.items():
        name = re.sub(r"(?<![A-Za-z])" + old + r"(?![a-z])", new, name)
    name = re.sub(r"([a-z0-9])([A-Z])", lambda m: m.group(1) + "_" + m.group(2).lower(), name.replace("-", "_"))
    return name.lower()


def code_of(text):
    return re.sub(r"--.*", "", text)


def own_names(files):
    kit, given = set(), set()
    for path in files:
        text = code_of(open(path).read())
        for m in IMPORT.finditer(text):
            where, names = m.group(1), m.group(2) or ""
            ours = where.startswith("Rattle.") and not where.startswith(KIT)
            for n in TOKEN.findall(names):
                if not ours:
                    kit.add(n)
            for n in ALIAS.findall(m.group(0)):
                kit.discard(n)
                given.add(n)
        if path.endswith(PROOF):
            continue
        given.update(TOKEN.findall(text))
    names = {n for n in given if odd(n)} - kit
    capitals = {snake_plain(n) for n in names if "-" not in n}
    BESIDE.update(n for n in names if "-" in n and snake_plain(n) in capitals)
    return names | set(LAWS), kit


def clashes(names, files):
    plain = set()
    for path in files:
        plain.update(n for n in TOKEN.findall(code_of(open(path).read())) if n not in LAWS)
    by_new = {}
    for n in names:
        by_new.setdefault(snake(n), []).append(n)
    out = [(new, sorted(olds)) for new, olds in by_new.items() if len(olds) > 1]
    out += [(new, olds + ["(a name that is there)"]) for new, olds in by_new.items() if new in plain - SHARED]
    return sorted(out)


def renamed(text, names):
    return TOKEN.sub(lambda m: snake(m.group(0)) if m.group(0) in names else m.group(0), text)


def in_ticks(text, names):
    return re.sub(r"`[^`\n]+`", lambda m: renamed(m.group(0), names), text)


def antt(text, names):
    out = []
    for line in text.split("\n"):
        at = line.find("--")
        code, note = (line, "") if at < 0 else (line[:at], line[at:])
        out.append(renamed(code, names) + in_ticks(note, names))
    return "\n".join(out)


RUST = re.compile(r'(?P<note>//[^\n]*)|(?P<text>b?"(?:\\.|[^"\\])*")|(?P<code>(?:[^/"]|/(?!/))+)')


def rust(text, names):
    def one(m):
        if m.group("note"):
            return in_ticks(m.group("note"), names)
        if m.group("text"):
            return m.group("text")
        return renamed(m.group("code"), names)

    return RUST.sub(one, text)


def proof_names(text):
    return set(re.findall(r"^(" + WORD + r") : tie\.", text, re.M))


def proof(text, names, fields):
    mine = names - proof_names(text)

    def one(m):
        n = m.group(0)
        before = m.string[m.start() - 1 : m.start()]
        if n not in mine or (before == "." and n not in fields):
            return n
        return snake(n)

    return TOKEN.sub(one, text)


def edit(text, names):
    out = []
    for line in text.split("\n"):
        key, _, rest = line.partition(":")
        if key in ("old", "new"):
            line = key + ":" + renamed(rest, names)
        out.append(line)
    return "\n".join(out)


def main():
    files = sorted(glob.glob("crates/*/specs/**/*.antt", recursive=True) + glob.glob("crates/*/proofs/**/*.antt", recursive=True))
    names, _ = own_names(files)
    fields = set()
    for path in files:
        fields.update(re.findall(r"^ +pub (" + WORD + r") :", code_of(open(path).read()), re.M))
    met = clashes(names, files)
    if met:
        for new, olds in met:
            print("falls together:", new, "<-", ", ".join(olds))
        if "--anyway" not in sys.argv:
            sys.exit(1)
    for path in files:
        text = open(path).read()
        new = proof(text, names, fields) if path.endswith(PROOF) else antt(text, names)
        if new != text:
            open(path, "w").write(new)
    for path in sorted(glob.glob("crates/*/src/**/*.rt", recursive=True)):
        text = open(path).read()
        new = rust(text, names)
        if new != text:
            open(path, "w").write(new)
    for path in sorted(glob.glob("crates/*/must-fail/*.edit")):
        text = open(path).read()
        new = edit(text, names)
        if new != text:
            open(path, "w").write(new)
    known = set()
    for path in files:
        known.update(TOKEN.findall(code_of(open(path).read())))
    for path in sorted(glob.glob("docs/**/*.md", recursive=True)) + ["README.md"]:
        text = open(path).read()
        said = {n for n in TOKEN.findall(text) if odd(n) and snake(n) in known}
        new = in_ticks(text, said)
        if new != text:
            open(path, "w").write(new)
    print(len(names), "names")


main()
