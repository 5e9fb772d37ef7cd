#!/usr/bin/env python3
"""Brings the repository's own names in antt to the spelling of today's Rattle: words in snake case, modules in camel case.

usage: python3 tools/respell.py [--list]     at the top of the repository, once, after the kit's port.py

A definition, a lemma, a field or a local name that the files of specs/ and proofs/ declare, as bytesNumber or len-none, becomes
bytes_number or len_none, wherever antt reads it: in the .antt files, in the clauses and ghost items of the .rt files, and in must-fail
edits; of docs/ and README.md the names in backquotes. Names that begin with a capital are types and facts, and stay. So do functions of
src/, strings, and what is not the repository's own. Where a definition and a lemma would fall together, as itemSize and item-size, the
lemma gets _lem, and a local name _is; BESIDE has what is left.
The modules of proofs/ and specs/ that are folders of laws get a capital. --list prints the names, old and new, and writes nothing.
"""

import collections
import glob
import os
import re
import sys

WORD = re.compile(r"[^\s(){}.;,@\"«»`]+")
DECLARED = re.compile(r"^(\s*)((?:pub |abbrev |unfoldable |record |data )*)([^\s:(){};,.=]+(?: [^\s:(){};,.=]+)*?)((?: [({].*?)?) : ")
# A name of the generated part of a proof, which the kit spells.
GENERATED = re.compile(r" : tie\.")
# Names of one place alone that would fall together with a definition there: the path's beginning, old and new.
BESIDE = [
    ("crates/vmti/proofs/", "one_number", "one_number_lem"),
    ("crates/write_packet/proofs/", "part_bytes", "part_bytes_lem"),
    ("crates/write_packet/proofs/", "value-at", "value_at_lem"),
    ("crates/edit_rules/proofs/Edits.antt", "in_order", "in_order_is"),
]
# Local names with no type of their own.
UNTYPED = ["is-size", "is-tag", "over-top", "size-law"]
MODULES = ["rows", "words", "bounds", "series", "reading", "edits", "table", "demands", "tables", "sheets", "coding"]
CLAUSE = re.compile(r"(ghost use [^;]*;|(?:requires|ensures)\*?(?: \w+)? \{|ghost(?: \w+)?:? ?\{)")


def files(end):
    return sorted(p for p in glob.glob("crates/**/*" + end, recursive=True) if "/out/" not in p)


def read(path):
    with open(path, encoding="utf-8") as f:
        return f.read()


def snake(name):
    name = re.sub(r"(?<=[a-z0-9'′])([A-Z])", lambda m: "_" + m[1].lower(), name)
    return name.replace("-", "_")


def own_names():
    """Each declared name that is to change, with the new one; and where each name is declared."""
    top, field, local = (collections.defaultdict(set) for _ in range(3))
    words = {}
    for path in files(".antt"):
        text = read(path)
        words[path] = set(WORD.findall(re.sub(r"(?<![^\s(){};,])--[^\n]*", "", text)))
        for line in text.split("\n"):
            if GENERATED.search(line):
                continue
            m = DECLARED.match(line)
            if not m or m[0].lstrip().startswith("--"):
                continue
            kind = top if not m[1] else field if "pub" in m[2] else local
            for name in m[3].split():
                kind[name].add(path)
    seen = {*top, *field, *local, *UNTYPED}
    found, back = {}, collections.defaultdict(set)
    for name in seen:
        if not re.match(r"[a-z]", name) or name.endswith("-spec") or "◌" in name:
            continue
        if snake(name) != name:
            found[name] = snake(name)
            back[snake(name)].add(name)
    for new, olds in back.items():
        if len(olds) == 1 and new not in seen:
            continue
        for old in olds:
            others = (olds | {new}) - {old}
            if old in field:
                continue
            if "-" in old and old in top:
                found[old] = new + "_lem"
            elif "-" in old and old in local and any(old in w and others & w for w in words.values()):
                found[old] = new + "_is"
    return found, seen


def turned(text, names, used=None):
    def one(m):
        w = m[0]
        if w in names:
            if used is not None:
                used.add(w)
            return names[w]
        return w
    out = []
    for piece in re.split(r'("(?:[^"\\\n]|\\.)*")', text):
        out.append(piece if piece.startswith('"') else WORD.sub(one, piece))
    return "".join(out)


def in_spans(text, names):
    return re.sub(r"`[^`\n]+`", lambda m: turned(m[0], names), text)


def antt(text, names):
    """The code; of a comment the names in backquotes, and those with a capital inside, which are no plain words."""
    camel = {k: v for k, v in names.items() if re.search(r"[a-z0-9][A-Z]", k)}
    lines = []
    for line in text.split("\n"):
        m = re.search(r"(?<![^\s(){};,])--(?![^\s])", line)
        if m:
            code, comment = line[: m.start()], line[m.start():]
            lines.append(turned(code, names) + in_spans(turned(comment, camel), names))
        else:
            lines.append(turned(line, names))
    return "\n".join(lines)


def clause_end(text, at):
    depth = 0
    for i in range(at, len(text)):
        depth += text[i] == "{"
        depth -= text[i] == "}"
        if depth == 0:
            return i + 1
    return len(text)


def rt(text, names):
    out, at = [], 0
    for m in CLAUSE.finditer(text):
        if m.start() < at:
            continue
        out.append(text[at: m.start()])
        end = m.end() if m[0].endswith(";") else clause_end(text, m.end() - 1)
        out.append(turned(text[m.start(): end], names))
        at = end
    out.append(text[at:])
    camel = {k: v for k, v in names.items() if re.search(r"[a-z0-9][A-Z]", k)}
    return re.sub(r"(?m)^(\s*//.*)$", lambda m: turned(in_spans(m[0], names), camel), "".join(out))


def edit(text, names):
    if re.search(r"(?m)^file: \S+\.antt", text):
        return "\n".join(antt(l, names) if re.match(r"(old|new): ", l) else l for l in text.split("\n"))
    marks = re.compile(r"≡|⌜|→|λ|≤|requires|ensures|ghost")
    return "\n".join(turned(l, names) if re.match(r"(old|new): ", l) and marks.search(l) else l for l in text.split("\n"))


def modules(text):
    for m in MODULES:
        text = re.sub(r"(Rattle\.format\.(?:proofs|specs)\.)%s(?=[.\s]|$)" % m, lambda k: k[1] + m.capitalize(), text)
    return text


def move_modules():
    for part in ("proofs", "specs"):
        for m in MODULES:
            node = f"crates/format/{part}/{m}.antt"
            if not os.path.isfile(node):
                continue
            os.rename(node, f"crates/format/{part}/{m.capitalize()}.antt")
            if os.path.isdir(f"crates/format/{part}/{m}"):
                os.rename(f"crates/format/{part}/{m}", f"crates/format/{part}/{m.capitalize()}")
            lib = f"crates/format/{part}/Lib.antt"
            text = re.sub(r"(?m)^((?:pub )?mod )%s$" % m, lambda k: k[1] + m.capitalize(), read(lib))
            with open(lib, "w", encoding="utf-8") as f:
                f.write(text)
    for path in glob.glob("crates/format/must-fail/*.edit"):
        text = re.sub(r"(?m)^(file: (?:proofs|specs)/)(%s)/" % "|".join(MODULES), lambda k: k[1] + k[2].capitalize() + "/", read(path))
        with open(path, "w", encoding="utf-8") as f:
            f.write(text)


def main():
    names, _ = own_names()
    # names of the kit that a file imports beside one of ours that would be spelled alike
    for path in files(".antt") + files(".rt"):
        text = read(path)
        kit = set()
        for m in re.finditer(r"(?m)^(?:pub |ghost )?use ([^;{\n]*)\{([^}]*)\}", text):
            if not re.match(r"Rattle\.(?!std)", m[1]):
                kit |= {n.strip().split(" as ")[-1] for n in m[2].split(",")}
        for w in set(WORD.findall(text)):
            if w in names and names[w] in kit:
                print("like one of the kit's:", path, w, names[w])
    if "--list" in sys.argv:
        for old in sorted(names):
            print(old, names[old])
        return
    changed = 0
    todo = [(p, antt) for p in files(".antt")] + [(p, rt) for p in files(".rt")] + [(p, edit) for p in files(".edit")]
    todo += [(p, in_spans) for p in sorted(glob.glob("docs/*.md")) + ["README.md"] if not p.endswith("PORT.md")]
    for path, how in todo:
        text = read(path)
        there = dict(names) | {old: new for where, old, new in BESIDE if path.startswith(where)}
        new = modules(how(text, there))
        if new != text:
            changed += 1
            with open(path, "w", encoding="utf-8") as f:
                f.write(new)
    move_modules()
    print(len(names), "names,", changed, "files")


if __name__ == "__main__":
    main()
