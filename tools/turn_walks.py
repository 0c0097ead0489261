#!/usr/bin/env python3
"""Gives the proofs that walk the code by hand the names that today's Rattle makes for goals, steps, places and loops.

usage: turn_walks.py NAMES CRATE [FUNCTION..]

NAMES is the names.json that `rt check --generated DIR --old-names` writes in the crate's folder CRATE. It rewrites
proofs/F/Proof.antt, of the functions that are named or of all. A second run would count places twice: run it once.
Where it can't follow a file it says so, and turns what it can.
"""

import json
import os
import re
import sys

ID = r"[^\s(){}\[\].,;:λ→×≡∙\\\"]+"
CHAIN = r"(?:\.[^\s(){}\[\].,;\\\"]+)*"


def plain(name):
    return re.sub(r"-(\d+)$", r"\1", name.replace("_", "-").lower())


def alike(field, step):
    """Whether a field is this old step; port.py took some for a fact, with `Is` or a capital."""
    return plain(field) == plain(step) or plain(field) == "is" + plain(step)


def functions(names):
    for module, of in json.load(open(names, encoding="utf-8")).items():
        if ".Lts" in module:
            path, rest = module.split(".", 1)[1].rsplit(".Lts", 1)
            yield path, rest, of


def source_words(crate):
    words = {}
    for folder, _, files in os.walk(os.path.join(crate, "src")):
        for f in files:
            for w in re.findall(r"[A-Za-z]\w*", open(os.path.join(folder, f), encoding="utf-8").read()):
                if "_" in w:
                    words.setdefault(w.replace("_", "-"), w)
    return words


class Places:
    def __init__(self, of):
        self.rows = of["places"]
        self.new = of["places_by_name"]
        self.arms = of["arms"]
        self.by_old = {}
        for i, row in enumerate(self.rows):
            self.by_old.setdefault(plain(row[0]), i)
        self.by_name = {row[0]: i for i, row in enumerate(self.rows)}
        self.parents = [None if row[1] is None else self.by_name[row[1]] for row in self.rows]
        self.needs = {}
        for (old, new), at in zip(of["needs"], of["asked_at"]):
            for word in (old, new, "overflow-" + old, "nonzero-" + old):
                self.needs.setdefault(plain(word), (new, at[0]))
        self.order = [(new, at[0]) for (old, new), at in zip(of["needs"], of["asked_at"])]
        self.loops = {plain(old): new for (old, new), _ in of["loops"]}

    def group(self, i):
        """The old places that are one today at i, from i on upwards, and what is above them."""
        n = self.arms[i][1] if self.arms[i] else 1
        out = []
        while n and i is not None:
            out.append(i)
            i = self.parents[i]
            n -= 1
        return out, i

    def walk(self, start, ups):
        """From the place `start`, `ups` old places up: how many of today's, and the places where that ends."""
        target = start
        for _ in range(ups):
            if target is None:
                return None
            target = self.parents[target]
        if target is None:
            return None
        here, count = start, 0
        while True:
            group, above = self.group(here)
            if target in group:
                return count, here, target
            here = above
            count += 1
            if here is None:
                return None


def by_parameter(fields, names):
    k = 0
    while k < len(fields) and fields[k] == "1":
        k += 1
    if k < len(fields) and fields[k] == "0" and k < len(names):
        return [names[k]] + fields[k + 1:]
    return fields


class Turner:
    def __init__(self, path, of, words, said):
        self.p = Places(of)
        self.of = of
        self.words = words
        self.said = said
        self.path = path
        self.helpers = {}

    def field_words(self, fields):
        out = []
        for f in fields:
            out.append(self.words[f] if "-" in f and f in self.words else {"inv": "invariant"}.get(f, f))
        return out

    def of_step(self, target, fields):
        """The fields of a step, after its name."""
        if not fields:
            return fields
        callee = self.p.rows[target][3]
        if fields[0] in ("new", "auto", "last") and callee in self.of["params"]:
            return [fields[0].replace("last", "new")] + by_parameter(fields[1:], self.of["params"][callee])
        return fields

    def of_start(self, fields):
        if fields[0] in ("pre", "requires"):
            return ["requires"] + fields[1:]
        if fields[:2] == ["args", "result"]:
            return ["args", "res"] + fields[2:]
        return fields

    def at_place(self, here, target, rest):
        """The text of a field of the old place `target`, from today's place `here`; None where it has no such step."""
        first = rest[0]
        row = self.p.rows[target]
        step = row[2]
        if row[1] is None and first in ("args", "pre", "requires"):
            return "".join("." + f for f in self.field_words(self.of_start(rest)))
        if self.p.arms[here]:
            name, _, entries = self.p.arms[here]
            for field, old, way in entries:
                if alike(first, old) and rest[1:1 + len(way)] == way and way:
                    return "." + name + "." + field + "".join("." + f for f in self.field_words(rest[1 + len(way):]))
            for field, old, way in entries:
                if alike(first, old) and not way:
                    return "." + name + "." + field + "".join("." + f for f in self.field_words(self.of_step(target, rest[1:])))
        if step[0] and alike(first, step[0]):
            return "." + step[1] + "".join("." + f for f in self.field_words(self.of_step(target, rest[1:])))
        return None

    def find(self, start, rest, near):
        """The step nearest to the old place `near`, of those from `start` upwards."""
        best, here, count, depth = None, start, 0, 0
        while here is not None:
            group, above = self.p.group(here)
            for t in group:
                text = self.at_place(here, t, rest)
                if text is not None and (best is None or abs(depth - near) < best[0]):
                    best = (abs(depth - near), ".before" * count + text)
                depth += 1
            here, count = above, count + 1
        return best[1] if best else None

    def chain(self, start, fields, base=None):
        """What stands after a name whose place is `start`; answers the text, and the place where it is one."""
        ups = 0
        while ups < len(fields) and fields[ups] == "before":
            ups += 1
        walked = self.p.walk(start, ups)
        rest = fields[ups:]
        if not rest:
            if walked is None:
                self.said.append(f"{self.path}: too many `.before` from {self.p.rows[start][0]}")
                while walked is None:
                    ups -= 1
                    walked = self.p.walk(start, ups)
            return ".before" * walked[0], walked[2]
        if walked:
            count, here, target = walked
            text = self.at_place(here, target, rest)
            if text is not None:
                return ".before" * count + text, None
        if base:
            name, place = base
            depth, at = 0, place
            while at is not None and at != start:
                depth, at = depth + 1, self.p.parents[at]
            found = self.find(place, rest, depth + ups)
            if found:
                return (name, found), None
        found = self.find(start, rest, ups)
        if found:
            return found, None
        self.said.append(f"{self.path}: no step `{rest[0]}` above {self.p.rows[start][0]}")
        return "".join("." + f for f in self.field_words(fields)), None

    def body(self, text, env):
        env = dict(env)
        out, i = [], 0
        token = re.compile(
            r"--[^\n]*|let +(?P<let>" + ID + r") *= *(?P<value>\(?" + ID + CHAIN + r"(?: " + ID + CHAIN + r")?\)?" + CHAIN + r") in\b"
            r"|\((?P<helper>" + ID + r") (?P<of>" + ID + r")(?P<ofchain>" + CHAIN + r")\)(?P<after>" + CHAIN + r")"
            r"|(?P<fun>" + ID + r") (?P<arg>" + ID + r")(?P<argchain>" + CHAIN + r")(?=[\s)\],]|$)"
            r"|(?P<name>" + ID + r")(?P<chain>(?:\.[^\s(){}\[\].,;\\\"]+)+)"
            r"|(?P<bare>" + ID + r")")

        def split(chain):
            return chain.split(".")[1:] if chain else []

        bases = {n: (n, at) for n, at in env.items()}

        def of_chain(name, chain):
            text, place = self.chain(env[name], split(chain), bases.get(name))
            if isinstance(text, tuple):
                return text[0] + text[1], place
            return name + text, place

        def place_of(value):
            """The text and the place of an expression that is a place and no more."""
            m = re.fullmatch(r"\((" + ID + r") (" + ID + r")(" + CHAIN + r")\)(" + CHAIN + r")", value)
            if m and m.group(1) in self.helpers and m.group(2) in env and self.helpers[m.group(1)] is not None:
                inner, _ = of_chain(m.group(2), m.group(3))
                after, place = self.chain(self.helpers[m.group(1)], split(m.group(4)))
                return f"({m.group(1)} {inner}){after}", place
            m = re.fullmatch(r"(" + ID + r") (" + ID + r")(" + CHAIN + r")", value)
            if m and self.helpers.get(m.group(1)) is not None and m.group(2) in env:
                inner, _ = of_chain(m.group(2), m.group(3))
                return f"{m.group(1)} {inner}", self.helpers[m.group(1)]
            m = re.fullmatch(r"(" + ID + r")(" + CHAIN + r")", value)
            if m and m.group(1) in env:
                return of_chain(m.group(1), m.group(2))
            return None

        while i < len(text):
            m = token.match(text, i)
            if not m:
                out.append(text[i])
                i += 1
                continue
            if m.group(0).startswith("--"):
                out.append(m.group(0))
                i = m.end()
            elif m.group("let"):
                found = place_of(m.group("value"))
                if found:
                    out.append(f"let {m.group('let')} = {found[0]} in")
                    if found[1] is not None:
                        env[m.group("let")] = found[1]
                        root = re.match(r"(" + ID + r")", m.group("value"))
                        if root and root.group(1) in bases:
                            bases[m.group("let")] = bases[root.group(1)]
                        else:
                            bases.pop(m.group("let"), None)
                    else:
                        env.pop(m.group("let"), None)
                    i = m.end()
                else:
                    env.pop(m.group("let"), None)
                    head = re.match(r"let +" + ID + r" *= *", text[i:])
                    out.append(head.group(0))
                    i += head.end()
            elif m.group("helper"):
                found = place_of(f"({m.group('helper')} {m.group('of')}{m.group('ofchain')}){m.group('after')}")
                if found:
                    out.append(found[0])
                    i = m.end()
                else:
                    out.append("(")
                    i += 1
            elif m.group("fun"):
                if m.group("fun") == "let":
                    out.append(m.group("fun"))
                    i += 3
                    continue
                name = m.group("fun")
                if self.helpers.get(name) is not None and m.group("arg") in env:
                    out.append(place_of(f"{name} {m.group('arg')}{m.group('argchain')}")[0])
                    i = m.end()
                else:
                    out.append(name)
                    i += len(name)
            elif m.group("name"):
                if m.group("name") in env:
                    out.append(of_chain(m.group("name"), m.group("chain"))[0])
                else:
                    out.append(m.group(0))
                i = m.end()
            else:
                out.append(m.group(0))
                i = m.end()
        return "".join(out)

    def tie(self, text):
        def one(m):
            word = m.group(1)
            if word.startswith("Need-"):
                found = self.p.needs.get(plain(word[5:]))
                if not found:
                    self.said.append(f"{self.path}: no goal {word}")
                return "tie.Need-" + found[0] if found else m.group(0)
            for kind in ("invariant-", "decreases-"):
                if word.startswith(kind) and plain(word[len(kind):]) in self.p.loops:
                    return "tie." + kind + self.p.loops[plain(word[len(kind):])]
            if plain(word) in self.p.by_old:
                return "tie." + self.p.new[self.p.by_old[plain(word)]]
            if word not in ("close", "spec"):
                self.said.append(f"{self.path}: no place {word}")
            return m.group(0)

        return re.sub(r"(?<![\w'.-])tie\.(" + ID + r")", one, text)

    def parameters(self, signature):
        """The places of a declaration's arguments, in order; None for one that is none."""
        m = re.match(r"(?:abbrev |pub )*" + ID + r" : (.*)", signature, re.S)
        kind = m.group(1)
        need = re.match(r"tie\.Need-(" + ID + r")", kind)
        if need:
            found = self.p.needs.get(plain(need.group(1)))
            return [self.p.by_name.get(found[1])] if found else [None], None
        out = []
        rest = kind
        result = None
        while True:
            rest = rest.strip()
            m = re.match(r"\((" + ID + r"(?: " + ID + r")*) : ", rest)
            b = re.match(r"\{[^}]*\}", rest)
            if b:
                rest = rest[b.end():].strip().removeprefix("→")
                continue
            if m:
                depth, j = 0, 0
                for j, ch in enumerate(rest):
                    depth += ch == "("
                    depth -= ch == ")"
                    if depth == 0:
                        break
                inner = rest[m.end():j]
                t = re.match(r"tie\.(" + ID + r")", inner)
                for name in m.group(1).split():
                    out.append(self.p.by_old.get(plain(t.group(1))) if t else None)
                rest = rest[j + 1:].strip().removeprefix("→")
                continue
            t = re.match(r"tie\.(" + ID + r")((?: " + ID + r")*)\s*(→|$)", rest)
            if t:
                place = self.p.by_old.get(plain(t.group(1)))
                if t.group(3) == "→":
                    out.append(place)
                    rest = rest[t.end():]
                    continue
                result = place
            break
        return out, result

    def turn(self, text):
        name = self.path.rsplit(".", 1)[-1]
        parts = re.split(r"(?m)^(?=[^\s-])", text)
        out = []
        places = {}
        for part in parts:
            if re.match(r"use |pub use |open |mod |unfolding ", part) or not part.strip():
                out.append(part)
                continue
            s = re.match(r"((?:abbrev |pub |unfoldable )*(" + ID + r") : )", part)
            if s:
                if "tie." in part:
                    places[s.group(2)], result = self.parameters(part)
                    self.helpers[s.group(2)] = result
                    env = {}
                    # a signature names its arguments
                    names = []
                    for m in re.finditer(r"\((" + ID + r"(?: " + ID + r")*) : tie\.(" + ID + r")", part):
                        place = self.p.by_old.get(plain(m.group(2)))
                        for n in m.group(1).split():
                            if place is not None:
                                env[n] = place
                    part = self.tie(self.body(part, env) if env else part)
                out.append(part)
                continue
            e = re.match(r"(" + ID + r")((?: (?:" + ID + r"|\([^()]*\)))*) =(?=\s)", part)
            if e and e.group(1) in places:
                names = re.findall(r"\([^()]*\)|" + ID, e.group(2))
                env = {n: at for n, at in zip(names, places[e.group(1)]) if at is not None}
                out.append(part[:e.end()] + self.tie(self.body(part[e.end():], env)))
                continue
            if e and "tie.spec" in part:
                out.append(self.spec(part))
                continue
            out.append(part)
        text = "".join(out)
        # A test of `!x` says what x is.
        atom = r"(?:\((?:[^()]|\([^()]*\))*\)|[^\s()]+)"
        text = re.sub(r"not-(?:true|false) " + atom + r" ([^\s(),]*\.if-[^\s(),]*)", r"\1", text)
        steps = {row[2][1] for row in self.p.rows}

        def field(m):
            word = m.group(1)
            if word in steps:
                return m.group(0)
            return "." + {"inv": "invariant", "type-inv": "type_inv", "pre": "requires"}.get(word, self.words.get(word, word) if "-" in word else word)

        text = "\n".join(
            line if line.startswith("use ") else re.sub(r"(?<=[\w')])\.(" + ID + r")", field, line) for line in text.split("\n"))
        text = re.sub(r"\bargs\.result\b", "args.res", text)
        old = re.compile(r"(?<![\w'-])" + re.escape(name).replace("_", "[-_]") + r"[-_]spec(?![\w'-])")
        return old.sub(name + "_spec", text)

    def spec(self, part):
        at = part.index("tie.spec") + len("tie.spec")
        head, rest = part[:at], part[at:]
        args, i = [], 0
        while i < len(rest):
            if rest[i].isspace():
                i += 1
                continue
            if rest[i] == ")":
                break
            j = i
            if rest[i] == "(":
                depth = 0
                while True:
                    depth += rest[j] == "("
                    depth -= rest[j] == ")"
                    j += 1
                    if not depth:
                        break
            else:
                while j < len(rest) and not rest[j].isspace() and rest[j] != ")":
                    j += 1
            args.append((i, j))
            i = j
        loops = 2 * len(self.p.loops)
        if len(args) != loops + len(self.p.order):
            self.said.append(f"{self.path}: tie.spec has {len(args)} arguments, and {loops} + {len(self.p.order)} are asked: {' '.join(n for n, _ in self.p.order)}")
            return part
        out, last = [], 0
        # a loop's invariant and measure come first
        for k, (i, j) in enumerate(args):
            piece = rest[i:j]
            m = re.match(r"\(λ (" + ID + r")((?: " + ID + r")*)\. ", piece)
            if m and k >= loops:
                place = self.p.by_name.get(self.p.order[k - loops][1])
                if place is not None:
                    piece = piece[:m.end()] + self.body(piece[m.end():], {m.group(1): place})
            out.append(rest[last:i] + piece)
            last = j
        return head + "".join(out) + rest[last:]


def main():
    names, crate, *only = sys.argv[1:]
    words = source_words(crate)
    said = []
    for path, rest, of in functions(names):
        file = os.path.join(crate, "proofs", *path.split("."), "Proof.antt")
        if not os.path.exists(file) or (only and path not in only):
            continue
        text = open(file, encoding="utf-8").read()
        try:
            new = Turner(path, of, words, said).turn(text)
        except Exception as e:
            said.append(f"{path}: {type(e).__name__} {e}")
            continue
        if new != text:
            with open(file, "w", encoding="utf-8") as f:
                f.write(new)
    print("\n".join(said))


main()
