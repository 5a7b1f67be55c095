#!/usr/bin/env python3
"""Brings the definitions and lemmas of crates/ to one spelling: words in snake case, types in upper camel case.

usage: python3 tools/respell.py            at the top of the repository, after the kit's port.py and before any edit by hand

A name is respelt where it is declared in an .antt file of this repository:
- a part of it that begins with a small letter and goes on with a large one: byteAt is byte_at, recordHas-x is record_has-x;
- a constructor, a field, and a definition of specs/: each dash is an underscore;
- a type with a dash: Bit-read is BitRead, First2-4 is First2to4.
A lemma keeps its dashes. Names that the kit's library has are left alone. It prints names that would fall together, and then writes nothing.
Read are .antt files whole, of .rt files all but strings, must-fail edits, and the pages.
"""
import collections
import os
import re
import sys

TOKEN = re.compile(r"[^\s()\[\]{},;.\"`]+")
DECL = re.compile(r"^(\s*)((?:(?:abbrev|unfoldable|pub|data|record|ruleset)\s+)*)([^\s:(){}.,;=λ]+)(?=\s*[({:]|\s+:|\s+where)")
STRING = re.compile(r'b?"(?:[^"\\]|\\.)*"')


# what the rules give the same name, and facts that began with a small letter: by the file, or by what the file names
APART = [
    ("crates/job_texts/proofs/Parts.antt", {"by_length": "by_length_lem", "by_place": "by_place_lem"}),
    ("crates/jumps/proofs/Within.antt", {"by_turn": "by_turn_lem"}),
    ("crates/refusals/proofs/Admits.antt", {"one-of": "one_of_lem"}),
    ("crates/demands/proofs/Named.antt", {"one-of": "one_of_lem", "in-range": "in_range_lem"}),
    ("crates/unit_lists/proofs/rows/Proof.antt", {"no_rows": "no_rows_call"}),
]
FACTS = {"partIn": "PartIn", "jobLineIn": "JobLineIn", "unitIn": "UnitIn"}
BOUNDS = {"numberIn": "NumberIn", "lineIn": "LineIn"}
OTHERS = {"after-action": "after_an_action"}


def apart(path, text):
    """The names that go another way in this file."""
    own = {}
    for p, names in APART:
        if path.endswith(p):
            own.update(names)
    if "Bounds" in text or path.endswith("spelling/specs/Bounds.antt"):
        own.update(BOUNDS)
    return own


def files(*ends):
    for top in ("crates", "wrong-answers", "docs", "README.md"):
        if os.path.isfile(top):
            if top.endswith(ends):
                yield top
            continue
        for d, dirs, fs in os.walk(top):
            dirs[:] = [x for x in dirs if x not in ("out", "target", "landings", "data")]
            for f in sorted(fs):
                if f.endswith(ends):
                    yield os.path.join(d, f)


def snake(part):
    if not re.match(r"^[a-z]+[0-9]*[A-Z]", part) or re.search(r"_[A-Z]", part):
        return part
    p = re.sub(r"([a-z0-9])([A-Z])", r"\1_\2", part)
    return re.sub(r"[A-Z]+", lambda m: m.group(0).lower(), p)


def camel(name):
    first, *rest = name.split("-")
    out = first
    for r in rest:
        if out[-1].isdigit() and r[0].isdigit():
            out += "to" + r
        else:
            out += r[0].upper() + r[1:]
    return out


def declared():
    """Each name with the sorts in which it is declared: type, part (constructor or field), spec, other."""
    names = collections.defaultdict(set)
    for p in files(".antt"):
        spec = "/specs/" in p
        inside = False
        for line in open(p):
            if line.lstrip().startswith("--") or not line.strip():
                continue
            if not line.startswith(" "):
                inside = bool(re.match(r"(?:pub )?(?:data|record)\b", line))
            m = DECL.match(line)
            if not m:
                continue
            lead, words, name = m.group(1), m.group(2).split(), m.group(3)
            if not re.match(r"[A-Za-zℕℤΛμ]", name) or name in ("use", "module", "let", "where", "mod", "elim", "open"):
                continue
            if "data" in words or "record" in words:
                names[name].add("type")
            elif name[0].isupper() and "-" in name and re.search(r"Type\b", line):
                names[name].add("type")
            elif lead and not (set(words) & {"abbrev", "unfoldable"}):
                names[name].add("part" if inside else "other")
            else:
                names[name].add("spec" if spec and set(words) & {"abbrev", "unfoldable"} else "other")
    return names


def kit_names():
    """Names that this repository brings in from the kit's libraries."""
    out = set()
    own = set(os.listdir("crates"))
    for p in files(".antt", ".rt"):
        for m in re.finditer(r"use ([\w.+◌'’-]+)\.\{([^}]*)\}", open(p).read()):
            first = m.group(1).split(".")
            if first[0] == "Rattle" and len(first) > 1 and first[1] in own:
                continue
            out |= {w.strip().split(" ")[0] for w in m.group(2).split(",")}
    return out


def table():
    kit = kit_names()
    out = {}
    for name, sorts in declared().items():
        if name in kit:
            continue
        new = "-".join(snake(p) for p in name.split("-"))
        if "-" in name:
            if sorts == {"type"} and name[0].isupper():
                new = camel(name)
            elif sorts & {"part", "spec"}:
                new = new.replace("-", "_")
        if new != name:
            out[name] = new
    out.update(FACTS)
    out.update(OTHERS)
    # a name that is no declaration of its own, as a bound variable
    for p in files(".antt"):
        for line in open(p):
            for t in TOKEN.findall(re.sub(r"--(\s|$).*", "", line)):
                if t not in out and t not in kit:
                    new = "-".join(snake(x) for x in t.split("-"))
                    if new != t:
                        out[t] = new
    return out


def turned(text, names):
    return TOKEN.sub(lambda m: names.get(m.group(0), m.group(0)), text)


def turned_code(text, names):
    out, at = [], 0
    for m in STRING.finditer(text):
        out.append(turned(text[at : m.start()], names))
        out.append(m.group(0))
        at = m.end()
    return "".join(out) + turned(text[at:], names)


def together(names):
    bad = []
    for p in files(".antt"):
        seen = {}
        text = open(p).read()
        own = apart(p, text)
        text = re.sub(r"--(\s|$).*", "", text)
        for t in {m.group(0) for m in TOKEN.finditer(text) if "." not in (text[m.start() - 1 : m.start()], text[m.end() : m.end() + 1])}:
            new = own.get(t, names.get(t, t))
            if seen.setdefault(new, t) != t:
                bad.append((p, seen[new], t))
    return bad


def main():
    names = table()
    if "--table" in sys.argv:
        for a, b in sorted(names.items()):
            print(a, b)
        return 0
    bad = together(names)
    for b in bad:
        print("fall together:", *b)
    if bad and "--force" not in sys.argv:
        return 1
    n = 0
    for p in files(".antt", ".edit", ".md", ".rt"):
        text = open(p).read()
        own = names | apart(p, text)
        new = turned_code(text, own) if p.endswith(".rt") else turned(text, own)
        if new != text:
            open(p, "w").write(new)
            n += 1
    print(f"{len(names)} names, {n} files")
    return 0


sys.exit(main())
