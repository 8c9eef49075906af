#!/usr/bin/env python3
"""Spells this repository's own definitions, lemmas and fields as the library of today's Rattle spells its own.

usage: python3 tools/port_names.py [--check] [ROOT]

Run once, right after port.py. A definition `pathLength` becomes `path_length`. In a lemma's name a dash stays where it
joins a type to a name (`Held-minus`); every other dash becomes an underscore (`no-sooner` becomes `no_sooner`). It goes by spelling, over crates/ (definitions, proofs, contracts, edits) and
over the code spans of the Markdown pages. A name that a file takes from a library of the kit stays in that file.
--check writes nothing and lists names that fall together.
"""

import collections
import os
import re
import sys

WORD = re.compile(r"[^\s(){}.;,@\"«»\[\]]+")
MARKS = r"(?:(?:abbrev|unfoldable|pattern|pub|data|record) +)*"
DECLARED = re.compile(rf"^( *)({MARKS})([^\s(){{}}.;,@\"«»]+)(?: \{{[^{{}}\n]*\}}| \([^()\n]*\))* :(?: |$)", re.M)
USE = re.compile(r"\buse ([^\s;{]+?)\.?(?:\{([^{}]*)\})?(?:\s+as\s+\S+)?(?=;|\s|$)")
CLAUSE = re.compile(r"(?:requires|ensures)\*?\s*(?:\w+\s*)?\{|ghost\s*(?:\w+\s*:\s*)?\{")
COMMENT_ANTT = re.compile(r"--[^\n]*")
# Where two names would fall together, or a new one would meet another name in its file: the name to take instead.
BY_HAND = {
    "is-nan": "is_nan_lem",
    "byCount": "counted_raw",
    "leftAxis": "axis_left",
    "rightAxis": "axis_right",
    "lengths-differ": "lengths_differ_lem",
    "chain-length": "chain_length_lem",
    "chainLength": "length_of_chain",
    "roomJoints": "roomJoints",
    "roomPoses": "roomPoses",
}


def in_snake(word):
    if not re.match(r"[a-z]", word):
        return word
    return re.sub(r"(?<=[a-z0-9])([A-Z])(?=[a-z0-9]|$)", lambda m: "_" + m[1].lower(), word)


def files(root, ends):
    for folder, dirs, names in os.walk(root):
        dirs[:] = sorted(d for d in dirs if d not in ("out", ".git", "target"))
        for name in sorted(names):
            if name.endswith(ends):
                yield os.path.join(folder, name)


def read(path):
    with open(path, encoding="utf-8") as f:
        return f.read()


def is_library(crate_names, path):
    steps = path.split(".")
    return not (steps[0] == "Rattle" and len(steps) > 1 and steps[1] in crate_names)


def of_library(crate_names, text):
    """The names that a file takes from a library of the kit."""
    out = set()
    for m in USE.finditer(text):
        if is_library(crate_names, m[1]):
            if m[2] is None:
                out.add(m[1].split(".")[-1])
            else:
                out.update(re.split(r"\s+as\s+", it.strip())[-1].strip() for it in m[2].split(",") if it.strip())
    return out


def collected(root):
    """Each declared name of the repository, with the files that declare it."""
    names = collections.defaultdict(set)
    for path in files(os.path.join(root, "crates"), ".antt"):
        if path.endswith("Proof.antt"):
            continue
        for m in DECLARED.finditer(re.sub(r"--[^\n]*", "", read(path))):
            names[m[3]].add(path)
    return names


def respelled(name):
    parts = [in_snake(p).replace("get_d", "get_or") for p in name.split("-")]
    out = parts[0]
    for left, right in zip(parts, parts[1:]):
        a_type = re.match(r"[A-Z]", left) or re.match(r"[A-Z]", right)
        out += ("-" if a_type or not left or not right else "_") + right
    return out


def tabled(names):
    """Each old name with its new one. A lemma that would have another name's spelling gets `_lem`."""
    table = {old: BY_HAND.get(old) or respelled(old) for old in names}
    by_new = collections.defaultdict(set)
    for old, new in table.items():
        by_new[new].add(old)
    for new, olds in by_new.items():
        if len(olds) > 1:
            for old in olds:
                if "-" in old and old not in BY_HAND:
                    table[old] = new + "_lem"
    return {old: new for old, new in table.items() if old != new}


def turn_words(text, table, keep):
    return WORD.sub(lambda m: table[m[0]] if m[0] in table and m[0] not in keep else m[0], text)


def turn_antt(text, table, keep):
    out, at = [], 0
    for m in COMMENT_ANTT.finditer(text):
        out.append(turn_words(text[at : m.start()], table, keep))
        out.append(turn_comment(m[0], table, keep))
        at = m.end()
    out.append(turn_words(text[at:], table, keep))
    return "".join(out)


def turn_comment(text, table, keep):
    """A code span, and a word that is no word of English: camel case."""
    text = re.sub(r"`[^`\n]*`", lambda m: turn_words(m[0], table, keep), text)
    return re.sub(r"[a-z][\w']*[A-Z][\w']*", lambda m: table.get(m[0], m[0]) if m[0] not in keep else m[0], text)


def closed(text, at):
    """The place behind the brace that closes the one before `at`."""
    depth = 1
    while at < len(text) and depth:
        depth += {"{": 1, "}": -1}.get(text[at], 0)
        at += 1
    return at


def turn_rt(text, table, keep):
    spans = [(m.start(), m.end()) for m in re.finditer(r"ghost\s+use\b[^;]*;", text)]
    spans += [(m.end(), closed(text, m.end())) for m in CLAUSE.finditer(text)]
    comments = [(m.start(), m.end()) for m in re.finditer(r"(?m)^\s*//[^\n]*", text)]
    out, at = [], 0
    for start, end, kind in sorted([(*s, turn_antt) for s in spans] + [(*s, turn_comment) for s in comments]):
        if start < at:
            continue
        out += [text[at:start], kind(text[start:end], table, keep)]
        at = end
    return "".join(out) + text[at:]


def turn_md(text, table):
    return re.sub(r"`[^`\n]+`", lambda m: turn_words(m[0].replace("`", " ` "), table, set()).replace(" ` ", "`"), text)


def main(argv):
    check = "--check" in argv
    root = next((a for a in argv if not a.startswith("-")), ".")
    crate_names = set(os.listdir(os.path.join(root, "crates")))
    names = collected(root)
    table = tabled(names)
    by_new = collections.defaultdict(set)
    for old, new in table.items():
        by_new[new].add(old)
    for new, olds in sorted(by_new.items()):
        together = olds | ({new} if new in names else set())
        if len(together) > 1:
            places = [set(p for p in names[o]) for o in together]
            same_crate = {p.split("/crates/")[-1].split("/")[0] for ps in places for p in ps}
            print("together:", new, sorted(together), sorted(same_crate))
    for path in files(os.path.join(root, "crates"), (".antt", ".rt")):
        text = read(path)
        keep = of_library(crate_names, text)
        if check:
            code = re.sub(r"--[^\n]*", "", text)
            tokens = set(WORD.findall(code))
            bare = set(m[0] for m in re.finditer(r"(?<![.\w'-])[^\s(){}.;,@\"«»\[\]]+", code))
            for old in sorted(tokens & set(table)):
                if old not in keep and table[old] in bare and not path.endswith("Proof.antt"):
                    print("meets:", path, old, table[old])
            continue
        new = (turn_antt if path.endswith(".antt") else turn_rt)(text, table, keep)
        if new != text:
            with open(path, "w", encoding="utf-8") as f:
                f.write(new)
    if not check:
        for path in files(root, ".md"):
            text = read(path)
            new = turn_md(text, table)
            if new != text:
                with open(path, "w", encoding="utf-8") as f:
                    f.write(new)
    print(len(table), "names have a new spelling")


main(sys.argv[1:])
