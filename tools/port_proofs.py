#!/usr/bin/env python3
"""Turns the proofs of an older Rattle, Proof.antt, into Invariants.antt and Answers.antt.

usage: python3 tools/port_proofs.py CRATE [NAMES]

CRATE is a crate's folder. NAMES is the folder that `rt check --generated NAMES --old-names` wrote; without it the script
runs that. Each proofs/F/Proof.antt that ends in `tie.close (tie.spec ..)` is read: its needs, in order, become goals under
their new names, and each path of facts is led to the step's new name. An answer that only searched goes.
A line that begins 'left:' names what was not turned.
"""

import json
import os
import re
import subprocess
import sys
import tempfile

WORD = r"[^\s(){}.;,@\"«»\[\]]+"
PATH = re.compile(rf"(?<![^\s(\[{{,;|])c((?: ?\.{WORD})+)")
TRIVIAL = re.compile(r"\(?(λ c( κs)?\. )?(search rules|tt|search)\)?$")


def plain(name):
    return name.replace("_", "-").replace("·", "-").lower()


def read(path):
    with open(path, encoding="utf-8") as f:
        return f.read()


def blocks(text):
    """The declarations of a file: texts between blank lines, joined where a line is indented."""
    out = []
    for part in re.split(r"\n\s*\n", text.strip("\n")):
        if out and part[:1] in (" ", "\t"):
            out[-1] += "\n\n" + part
        else:
            out.append(part)
    return out


def atoms(text):
    """The arguments of a call: words and bracketed terms."""
    out, at = [], 0
    while at < len(text):
        if text[at].isspace():
            at += 1
            continue
        start, depth = at, 0
        while at < len(text) and (depth or not (text[at].isspace() or text[at] == ")")):
            depth += {"(": 1, ")": -1, "[": 1, "]": -1, "{": 1, "}": -1}.get(text[at], 0)
            at += 1
        if at == start:
            break
        out.append(text[start:at])
    return out


def contracts(top):
    """By the path of each function of the repository the labels of its clauses."""
    out = {}
    for crate in sorted(os.listdir(os.path.join(top, "crates"))):
        src = os.path.join(top, "crates", crate, "src")
        for folder, _, files in os.walk(src):
            for file in files:
                if not file.endswith(".rt"):
                    continue
                path = os.path.relpath(os.path.join(folder, file), src)[: -len(".rt")]
                steps = [crate] + [s for s in path.split(os.sep) if s not in ("lib", "main", "mod")]
                text = re.sub(r"(?m)//[^\n]*", "", read(os.path.join(folder, file)))
                types = []
                for m in re.finditer(r"(?m)^impl(?:<[^>]*>)? (\w+)[^{]*\{", text):
                    depth, at = 1, m.end()
                    while depth and at < len(text):
                        depth += {"{": 1, "}": -1}.get(text[at], 0)
                        at += 1
                    types.append((m.end(), at, m[1]))
                for m in re.finditer(r"\bfn (\w+)", text):
                    at = text.find("(", m.end())
                    depth = 0
                    while True:
                        depth += {"(": 1, ")": -1}.get(text[at], 0)
                        at += 1
                        if not depth:
                            break
                    clauses = {"requires": [], "ensures": []}
                    while True:
                        it = re.compile(r"[^{;]*?\b(requires|ensures)\*?\s*(\w+)?\s*\{").match(text, at)
                        if not it:
                            break
                        clauses[it[1]].append(it[2])
                        depth, at = 1, it.end()
                        while depth:
                            depth += {"{": 1, "}": -1}.get(text[at], 0)
                            at += 1
                    of = next((n for a, b, n in types if a <= m.start() < b), None)
                    out["::".join(steps + ([of] if of else []) + [m[1]])] = clauses
    return out


CONTRACTS = {}


def labels(path, kind):
    """The labels of a function's clauses of one kind, where it has several."""
    got = CONTRACTS.get(path, {}).get(kind, [])
    return got if len(got) > 1 or got and got[0] else []


def picked(parts, names):
    """A path of numbers into a tuple of clauses, as a path by label."""
    if not names:
        return parts
    i = 0
    while i < len(names) - 1 and parts[i : i + 1] == ["1"]:
        i += 1
    if i == len(names) - 1:
        return [names[i]] + parts[i:]
    if parts[i : i + 1] == ["0"]:
        return [names[i]] + parts[i + 1 :]
    return None


def top_level(text, mark):
    """The places at which the mark stands outside brackets."""
    depth, out, at = 0, [], 0
    while at < len(text):
        ch = text[at]
        depth += ch in "([{"
        depth -= ch in ")]}"
        if not depth and text.startswith(mark, at):
            out.append(at)
        at += 1
    return out


def closing(text):
    """The place of the bracket that closes the first one."""
    depth = 0
    for at, ch in enumerate(text):
        depth += (ch in "([{") - (ch in ")]}")
        if not depth:
            return at
    return -1


def tuple_pieces(text):
    """What stands in a bracket, between commas."""
    inner = text[1:-1]
    commas = top_level(inner, ",")
    cuts = zip([0] + [c + 1 for c in commas], commas + [len(inner)])
    return [piece for piece in (inner[a:b].strip() for a, b in cuts) if piece]


def bracketed(text):
    return text.startswith("(") and closing(text) == len(text) - 1


def distributed(term, count):
    """A term that proves several clauses, as one term for each, where it is a tuple or rewrites one."""
    term = term.strip()
    if bracketed(term):
        pieces = tuple_pieces(term)
        if len(pieces) == 1:
            return distributed(pieces[0], count)
        while len(pieces) < count and bracketed(pieces[-1]) and len(tuple_pieces(pieces[-1])) > 1:
            pieces += tuple_pieces(pieces.pop())
        if len(pieces) > count:
            pieces[count - 1 :] = ["(" + ", ".join(pieces[count - 1 :]) + ")"]
        return pieces if len(pieces) == count else None
    parts = atoms(term)
    if parts[:1] == ["rw"] and (len(parts) == 3 or len(parts) == 4 and parts[2] == "at"):
        below = distributed(parts[-1], count)
        wrap = lambda p: p if re.fullmatch(WORD + rf"(\.{WORD})*", p) else f"({p})"
        return below and [" ".join(parts[:-1] + [wrap(p)]) for p in below]
    return None


def as_record(body, names, said, goal):
    """The answer with its tuple written as a record of the clauses."""
    if len(names) < 2:
        return body
    eq = body.index(" =") + 2
    head, term = body[:eq], body[eq:]
    ins = top_level(term, " in ") + top_level(term, " in\n")
    cut = max(ins) + 3 if ins else 0
    lets, last = term[:cut], term[cut:].strip()
    if last.startswith("record"):
        return body
    pieces = distributed(last, len(names))
    if pieces:
        fields = "; ".join(f"{n} = {p}" for n, p in zip(names, pieces))
        return f"{head}{lets} record {{ {fields} }}"
    said.append(f"{goal}: several clauses {names}")
    rewrites = ""
    if last.startswith("rw ") and len(atoms(last)) == 3 and atoms(last)[1] != "at":
        _, rewrites, last = atoms(last)
        last = last[1:-1] if bracketed(last) else last
    ways = ["1." * i + "0" for i in range(len(names) - 1)] + [".".join("1" * (len(names) - 1))]
    needs_it = lambda i: rewrites and (i == 0 or not goal.startswith("returns"))
    fields = "; ".join(f"{n} = " + (f"rw {rewrites} all.{w}" if needs_it(i) else f"all.{w}") for i, (n, w) in enumerate(zip(names, ways)))
    return f"{head}{lets} let all = {last} in record {{ {fields} }}"


def without_aliases(body):
    """The term with each name of an earlier place written out."""
    alias = re.compile(rf"let ([a-z]\w*'?) = c((?: ?\.{WORD})*) in\s*")
    at = 0
    while True:
        m = alias.search(body, at)
        if not m:
            return body
        rest = body[m.end() :]
        steps = [s.strip() for s in m[2].split(".")[1:] if s.strip() != "before"]
        if steps and (len(steps) > 1 and steps[1:] != ["ensures"] or not re.search(rf"(?<![\w.'-]){re.escape(m[1])} ?\.", rest)):
            at = m.end()
            continue
        if steps:
            rest = re.sub(rf"(?<![\w.'-]){re.escape(m[1])}(?= ?\.[a-z0-9])", lambda _: "c" + m[2], rest)
            if re.search(rf"(?<![\w.'-]){re.escape(m[1])}(?![\w.'-])", rest):
                body = body[: m.end()] + rest
                at = m.end()
                continue
        else:
            rest = re.sub(rf"(?<![\w.'-]){re.escape(m[1])}(?![\w'-])", lambda _: "c" + m[2], rest)
        body = body[: m.start()] + rest


class Names:
    def __init__(self, of):
        self.places = {old: (parent, step, callee) for old, parent, step, callee, _ in of["places"]}
        self.own = of.get("own", "")
        self.arms = {it[0]: arm for it, arm in zip(of["places"], of["arms"])}
        self.needs = of["needs"]
        self.asked_at = of["asked_at"]
        self.loops = of["loops"]
        self.of = of

    def chain(self, place):
        while place:
            parent, step, callee = self.places.get(place, (None, ["", ""], None))
            yield place, step, callee
            place = parent


def led(text, chain, names, said):
    """The term with each path of facts at its new name."""

    def of_clauses(path, parts, labelled):
        got = picked(parts, labelled)
        if got is not None:
            return ".".join([path] + got)
        if parts:
            said.append(f"clauses of {path}: {parts}")
        whole = f"{path}.{labelled[-1]}"
        for label in reversed(labelled[:-1]):
            whole = f"({path}.{label}, {whole})"
        return whole

    def one(m):
        parts = [p.strip() for p in m[1].split(".")[1:]]
        depth = 0
        while parts and parts[0] == "before":
            parts.pop(0)
            depth += 1
        if not parts:
            return m[0]
        step = parts[0].replace("well-formed", "well_formed").replace("type-inv", "type_inv")
        if step == "requires":
            return of_clauses("c.requires", parts[1:], labels(names.own, "requires"))
        if step in ("args", "ranges", "well_formed", "type_inv"):
            return ".".join(["c", step] + [p.replace("-", "_") for p in parts[1:2]] + parts[2:])
        same = (plain(step), plain(step.removesuffix("_lem")))
        for place, _, _ in chain:
            arm = names.arms.get(place)
            for new, old, path in arm[2] if arm else []:
                if path and plain(old) in same and parts[1 : 1 + len(path)] == path:
                    return ".".join(["c", arm[0], new] + parts[1 + len(path) :])
        found = [(i, new, callee) for i, (_, (old, new), callee) in enumerate(chain) if plain(old) in same]
        if not found:
            said.append(f"no step {step}")
            return "c." + ".".join(parts)
        _, new, callee = min(found, key=lambda it: abs(it[0] - depth))
        if callee and parts[1:2] in (["auto"], ["new"]) and parts[2:3] in (["0"], ["1"]):
            i = 0
            while parts[2 + i : 3 + i] == ["1"]:
                i += 1
            params = names.of["params"].get(callee, [])
            if i < len(params) and parts[2 + i : 3 + i] == ["0"]:
                return ".".join(["c", new, parts[1], params[i]] + parts[3 + i :])
            said.append(f"auto of {callee}: {parts}")
        if callee and parts[1:2] == ["ensures"]:
            return of_clauses(f"c.{new}.ensures", parts[2:], labels(callee, "ensures"))
        if new.startswith("if-not-") and parts[1:] in (["true"], ["false"]):
            return f"(not_from_{'false' if parts[1] == 'true' else 'true'} _ c.{new}.{parts[1]})"
        return "c." + ".".join([new] + parts[1:])

    return PATH.sub(one, text)


def turned(path, crate, function, of):
    text = read(path)
    said = []
    of["own"] = crate + "::" + function.replace(".", "::")
    names = Names(of)
    uses, decls = [], []
    for part in blocks(text):
        lines = part.split("\n")
        if all(l.startswith(("use ", "pub use ", "--")) for l in lines) and any(l.startswith(("use ", "pub use ")) for l in lines):
            uses += lines
        else:
            while lines and lines[0].startswith("use "):
                uses.append(lines.pop(0))
            decls.append("\n".join(lines))
    main = next((d for d in decls if "tie.spec" in d), None)
    if main is None:
        return None
    decls.remove(main)
    inside = main[main.index("tie.spec") + len("tie.spec") :]
    args = atoms(inside)
    declared = {}
    for d in decls:
        m = re.search(rf"^((?:abbrev |unfoldable |pub )*)({WORD}) :(.*?)(?=\n(?:unfolding [^\n]*\n)?\2(?=[ \n]))", d, re.M | re.S)
        if m:
            declared[m[2]] = (d, m[3].strip())
        else:
            said.append("not read: " + d[:60].replace("\n", " "))
    invariants = [a for a in args if a in declared and re.match(r"tie\.(invariant|decreases)", declared[a][1])]
    args = [a for a in args if a not in invariants]
    needs = names.needs
    out, used = [], set(invariants)
    if len(args) != len(needs):
        said.append(f"{len(args)} arguments, {len(needs)} needs: {[n[0] for n in needs]}")
        by_name = {}
        for a in args:
            m = a in declared and re.match(r"tie\.Need-(\S+)", declared[a][1])
            if m:
                by_name[plain(m[1])] = a
        matched = []
        for (old, new), place in zip(needs, names.asked_at):
            matched.append(by_name.get(plain(old)) or by_name.get(plain(new)))
        leftover = [a for a in args if a in declared and a not in matched]
        for a in leftover:
            said.append("unmatched " + a + " : " + declared[a][1])
        args = matched
    inlined = {}
    for n, (d, typ) in list(declared.items()):
        m = re.match(r"\(c : tie\.([A-Z]\S*?)( [^()]*)?\) ", typ)
        clause = re.search(rf"^{re.escape(n)} (c(?: [^\s=]+)*) =(.*)", d, re.M | re.S)
        if m and clause and n not in invariants:
            place = next((p for p in names.places if plain(p) == plain(m[1])), None)
            if place:
                body = without_aliases(re.sub(r"\s*\n\s*", " ", clause[2].strip()))
                inlined[n] = (clause[1].split()[1:], led(body, list(names.chain(place)), names, said))
                used.add(n)
                if "\nunfolding" in d:
                    said.append(f"inlined with its unfolding: {n}")

    def inline_one(text, n, params, body):
        word = re.compile(rf"(?<![\w.'-]){re.escape(n)} c(?: ?\.before)*(?![\w.'-])")
        while True:
            m = word.search(text)
            if not m:
                return text
            end, given = m.end(), []
            while len(given) < len(params):
                skip = len(text[end:]) - len(text[end:].lstrip())
                got = atoms(text[end + skip :])[:1]
                if not got:
                    break
                while got[0][-1] in ",;]}":
                    got[0] = got[0][:-1]
                given.append(got[0])
                end += skip + len(got[0])
            put = body
            for p, g in zip(params, given):
                if p != "_":
                    put = re.sub(rf"(?<![\w.'-]){re.escape(p)}(?![\w'-])", lambda _: g, put)
            text = text[: m.start()] + "(" + put + ")" + text[end:]

    def inline(text):
        for _ in range(3):
            for n, (params, body) in inlined.items():
                text = inline_one(text, n, params, body)
        return text

    led_plain = led

    def led_in(body, chain, names, said):
        return inline(led_plain(without_aliases(body), chain, names, said))

    def whole(body, new, place):
        """The answer, as a record where the goal has several clauses."""
        if new.startswith("returns"):
            return as_record(body, labels(names.own, "ensures"), said, new)
        if "-requires" in new:
            callee = names.places.get(place, (None, None, None))[2]
            asked = of["asked"].get(next((o for o, n in needs if n == new), ""), None)
            return as_record(body, asked or labels(callee, "requires"), said, new)
        return body

    for arg, (old, new), (place, _) in zip(args, needs, names.asked_at):
        if arg is None or TRIVIAL.fullmatch(arg.strip()):
            continue
        chain = list(names.chain(place))
        if arg in declared:
            used.add(arg)
            d = declared[arg][0]
            comment = "".join(l + "\n" for l in d.split("\n") if l.startswith("--"))
            unfolding = re.search(r"^unfolding [^\n]*\n", d, re.M)
            body = d[re.search(rf"^{re.escape(arg)} (?!:)", d, re.M).start() :]
            body = re.sub(rf"^{re.escape(arg)}(?=[ \n])", lambda m: new, body, flags=re.M)
            body = re.sub(r"^(\S+ c) (κs|_)(?= =)", r"\1", body, flags=re.M)
            if new == "" or new is None:
                said.append(f"no goal for {arg}")
                continue
            rest = body.split("=", 1)[1].strip() if "=" in body else ""
            if TRIVIAL.fullmatch(rest) and not unfolding:
                continue
            out.append(comment + f"pub {new} : goal.{new}\n" + (unfolding[0] if unfolding else "") + whole(led_in(body, chain, names, said), new, place))
        else:
            m = re.match(r"\(?λ (c(?: κs| _)?)\. (.*?)\)?$", arg, re.S)
            if m and arg.startswith("("):
                term = arg[1:-1]
                term = re.sub(r"^λ c(?: κs| _)?\. ", "", term)
                out.append(f"pub {new} : goal.{new}\n" + whole(f"{new} c = " + led_in(term, chain, names, said), new, place))
            elif m:
                term = re.sub(r"^λ c(?: κs| _)?\. ", "", arg)
                out.append(f"pub {new} : goal.{new}\n" + whole(f"{new} c = " + led_in(term, chain, names, said), new, place))
            else:
                out.append(f"pub {new} : goal.{new}\n{new} = {led_in(arg, chain, names, said)}")
    helpers = [d for n, (d, t) in declared.items() if n not in used]
    kept = []
    for h in helpers:
        m = re.search(r"tie\.Need-", h)
        if m:
            said.append("unused: " + h.split("\n")[0][:80])
            continue
        if "tie." in h:
            said.append("helper: " + h.split("\n")[0][:80])
        kept.append(h)
    given = []
    for a in invariants:
        d, t = declared[a]
        m = re.match(r"tie\.(invariant|decreases)-(\S+)", t)
        given.append((m[1], m[2], d, a))
    uses = [u for u in uses if not re.search(r"\.(Statement|Tie)\b", u)]
    return uses, kept, out, given, said


def write(path, text):
    os.makedirs(os.path.dirname(path), exist_ok=True)
    with open(path, "w", encoding="utf-8") as f:
        f.write(text)


def loop_names(of):
    """By the old name of a loop its new one."""
    out = {}
    for it in of["loops"]:
        out[plain(it[0][0])] = it[0][1]
    return out


def main(argv):
    crate = os.path.realpath(argv[0])
    name = os.path.basename(crate)
    where = argv[1] if len(argv) > 1 else os.path.join(tempfile.mkdtemp(), name)
    if len(argv) < 2:
        r = subprocess.run(["rt", "check", "--generated", where, "--old-names"], cwd=crate, capture_output=True, text=True)
        if "generated=1" not in r.stdout:
            print(r.stdout[-3000:], r.stderr[-2000:])
            return 1
    CONTRACTS.update(contracts(os.path.dirname(os.path.dirname(crate))))
    listed = json.loads(read(os.path.join(where, "names.json")))
    proofs = os.path.join(crate, "proofs")
    for folder, dirs, files in os.walk(proofs):
        if "Proof.antt" not in files:
            continue
        function = os.path.relpath(folder, proofs).replace(os.sep, ".")
        of = listed.get(f"Rattle-{name}-proofs.{function}.Lts")
        path = os.path.join(folder, "Proof.antt")
        if of is None:
            print(f"left: {name} {function}: not listed")
            continue
        got = turned(path, name, function, of)
        if got is None:
            print(f"left: {name} {function}: no tie.spec")
            continue
        uses, kept, out, given, said = got
        loops = loop_names(of)
        inv = []
        for kind, old, d, a in given:
            new = loops.get(plain(old), old)
            m = re.search(rf"^{re.escape(a)} ([^\n]*?)=(.*)", d, re.M | re.S)
            params, body = m[1].split(), m[2]

            at = next((i for i, it in enumerate(of["loops"]) if plain(it[0][0]) == plain(old)), None)
            live_names = {}
            if at is not None and len(params) == len(of["loops"][at][1]) + sum(of["changed"][at]):
                variables, changed = of["loops"][at][1], of["changed"][at]
                for w, v, is_changed in zip(params, variables, changed):
                    live_names[w] = ("l.initial." if is_changed else "l.") + v
                for w, v in zip(params[len(variables) :], [v for v, is_changed in zip(variables, changed) if is_changed]):
                    live_names[w] = "l." + v
            else:
                said.append(f"the variables of loop {old}: {params}")
                for w in params:
                    live_names[w] = "l.initial." + w[:-1] if w.endswith("₀") else "l." + w

            def live(w):
                return live_names.get(w[0], w[0])

            body = re.sub(rf"(?<![\w.'-])({WORD})", live, body) if params else body
            comment = "".join(l + "\n" for l in d.split("\n") if l.startswith("--"))
            unfolding = re.search(r"^unfolding [^\n]*\n", d, re.M)
            inv.append(comment + f"abbrev pub {kind}-{new} : goal.{kind}-{new}\n" + (unfolding[0] if unfolding else "") + f"{kind}-{new} l ={body}")
        for s in said:
            print(f"look: {name} {function}: {s}")
        if inv:
            text = "\n".join(uses) + f"\nuse Rattle.{name}.proofs.{function}.Given as goal\n\n" + "\n\n".join(inv) + "\n"
            write(os.path.join(folder, "Invariants.antt"), text.lstrip("\n"))
        for word in ("not_from_true", "not_from_false"):
            if any(f"({word} _ c." in it for it in out):
                uses.append(f"use Rattle.std.proofs.lemmas.Bool.{{{word}}}")
        if out or (kept and not inv):
            text = "\n".join(uses) + f"\nuse Rattle.{name}.proofs.{function}.Goals as goal\n\n" + "\n\n".join(kept + out) + "\n"
            write(os.path.join(folder, "Answers.antt"), text.lstrip("\n"))
        os.remove(path)
        if not os.listdir(folder):
            os.rmdir(folder)
    return 0


if __name__ == "__main__":
    sys.exit(main(sys.argv[1:]))
