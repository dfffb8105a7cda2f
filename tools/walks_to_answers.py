#!/usr/bin/env python3
"""Turns the walks of an older kit (proofs/F/Proof.antt over Tie) into proofs/F/Invariants.antt and Answers.antt.

usage: walks_to_answers.py CRATE_FOLDER NAMES_JSON [FUNCTION_PATH..]

NAMES_JSON is what `rt check --generated DIR --old-names` wrote in the crate's folder: for each function the old and new names of goals, steps, arms and
clauses. What it cannot turn it prints; a helper of a walk that took a place, `(c : tie.P)`, is left to be written over plain variables. The walks of
drafts/unfinished.patch are of this kind.
"""
import json
import os
import re
import sys

IDENT = r"[^\s(){}\[\].,;:=λ\"]+"


def blocks(text):
    """The top-level declarations of a file: (head lines of imports and comments, [(comment, lines)])."""
    out, cur = [], []
    for line in text.split("\n"):
        starts = bool(line) and not line[0].isspace()
        if starts and (line.startswith("--") or line.startswith("use ") or SIGN.match(line)):
            if line.startswith("--") and cur and all(l.startswith("--") for l in cur):
                cur.append(line)
                continue
            if SIGN.match(line) and cur and all(l.startswith("--") or not l.strip() for l in cur):
                cur.append(line)
                continue
            out.append(cur)
            cur = [line]
        else:
            cur.append(line)
    out.append(cur)
    return [b for b in out if any(l.strip() for l in b)]


SIGN = re.compile(r"^(?:(?:abbrev |unfoldable |pub |private )*" + IDENT + r" (?:: |:$)|(?:pub )?(?:data|record|inductive|instance|ruleset|module) )")
DECL = re.compile(r"^((?:abbrev |unfoldable |pub |private )*)(" + IDENT + r") :(.*)$")


class Walk:
    def __init__(self, names, said, cycle=False):
        self.n, self.said, self.cycle = names, said, cycle
        self.place = {p[0]: p for p in names["places"]}
        self.fields = {p[0]: (k or {}).get("fields") for p, k in zip(names["places"], names["clauses"])}
        self.typed = {p[0]: t for p, t in zip(names["places"], names["typed"])}
        self.arms = {p[0]: a for p, a in zip(names["places"], names["arms"])}
        self.pre = (names.get("pre") or {}).get("fields")
        self.needs = {a: (b, at[0]) for (a, b), at in zip(names["needs"], names["asked_at"])}
        self.back = {b: a for a, b in names["needs"]}
        self.norm = {a.replace("_", "-"): a for a in self.needs}

    def need(self, old):
        if old in self.needs:
            return self.needs[old]
        norm = old.replace("_", "-")
        if norm in self.norm:
            return self.needs[self.norm[norm]]
        # the older kit put the operation before some names
        ends = [n for n in self.norm if norm.endswith("-" + n)]
        if ends:
            return self.needs[self.norm[max(ends, key=len)]]
        new = [a for a, (b, _) in self.needs.items() if b.replace("_", "-") == norm]
        return self.needs[new[0]] if len(new) == 1 else None

    def old_of(self, old):
        return old if old in self.needs else self.norm.get(old.replace("_", "-"))

    def up(self, place, k):
        for _ in range(k):
            p = self.place.get(place)
            if p is None or p[1] is None:
                return None
            place = p[1]
        return place

    def step(self, place, name):
        """The new name of the step that `c.NAME` is at a place, or None."""
        if name in ("args", "requires", "ranges", "type_inv", "utf8"):
            return name
        p = self.place.get(place)
        want = name.replace("-", "_")
        if p and p[2][0].replace("-", "_") == want:
            return p[2][1]
        return None

    def nearest(self, place, name):
        want = name.replace("-", "_")
        while place is not None:
            p = self.place[place]
            if p[2][0].replace("-", "_") == want:
                return p[2][1]
            place = p[1]
        return None

    def paths(self, text, place, var, label):
        """Rewrites the paths from the argument `var` at a place, and from what a let binds to such a path."""
        alias = {var: place}
        # lets that bind a place
        pat = re.compile(r"let (" + IDENT + r") = (" + "|".join(map(re.escape, alias)) + r")((?:\.before)*) in\s*")
        while True:
            pat = re.compile(r"let (" + IDENT + r") = (" + "|".join(map(re.escape, alias)) + r")((?:\.before)*) in\s*")
            m = pat.search(text)
            if not m:
                break
            alias[m.group(1)] = self.up(alias[m.group(2)], m.group(3).count(".before"))
            text = text[: m.start()] + text[m.end() :]
        names = "|".join(map(re.escape, sorted(alias, key=len, reverse=True)))

        def found(at, k, step):
            """The place whose step has the name, at k places above or at the nearest one above."""
            here = self.up(at, k) if at is not None else None
            for start in (here, place):
                if start is None:
                    continue
                if step in SELF:
                    return "Start"
                p, want = start, step.replace("-", "_")
                while p is not None:
                    if self.place[p][2][0].replace("-", "_") == want:
                        return p
                    p = self.place[p][1]
            return None

        above = []
        p = place
        while p is not None:
            above.append(p)
            p = self.place[p][1]

        def arm(at, step, rest):
            """What an arm of a match has in place of a step: its name and the rest."""
            parts, best = rest.split(".")[1:], None
            for q in above:
                entry = self.arms.get(q)
                if not entry:
                    continue
                name, k, fields = entry
                group, r = [], q
                while r is not None and len(group) < k:
                    group.append(r)
                    r = self.place[r][1]
                if at not in group:
                    continue
                for new, old, path in fields:
                    if old.replace("_", "-") == step.replace("_", "-") and parts[: len(path)] == path and (best is None or len(path) > best[0]):
                        best = (len(path), f"{name}.{new}", parts[len(path) :])
            if best:
                return best[1] + "".join("." + x for x in best[2])
            return None

        def tail(at, step, rest):
            """The fields after a step: clauses and parameters by name."""
            parts = rest.split(".")[1:]
            fields = self.pre if step == "requires" else self.fields.get(at)
            if step == "requires":
                parts = ["requires"] + (parts[1:] if self.cycle and parts[:1] == ["1"] else parts)
            if parts and parts[0] in ("ensures", "requires") and fields and len(fields) > 2 and len(parts) > 2 and parts[1] == "1" and parts[2] in "01":
                i, k = 1, 0
                while k < len(fields) - 1 and i < len(parts):
                    if parts[i] == "0":
                        i += 1
                        break
                    if parts[i] != "1":
                        break
                    k, i = k + 1, i + 1
                parts = [parts[0], fields[k]] + parts[i:]
            elif parts and parts[0] in ("ensures", "requires") and fields and len(parts) > 1 and parts[1].isdigit() and int(parts[1]) < len(fields):
                parts[1] = fields[int(parts[1])]
            if parts and parts[0] in ("new", "auto") and self.place[at][3] and len(parts) > 1 and parts[1] in "01":
                params = self.n["params"].get(self.place[at][3]) or []
                i = 1
                while i < len(parts) and parts[i] == "1":
                    i += 1
                if i < len(parts) and parts[i] == "0" and i - 1 < len(params):
                    parts = [parts[0], params[i - 1]] + parts[i + 1 :]
            if step == "requires":
                parts = parts[1:]
            return "".join("." + q for q in parts)

        steps = {}
        pat = re.compile(r"let (" + IDENT + r") = (" + names + r")((?:\.before)*)\.(?!before\b)([^\s(){}\[\].,;:=λ]+)(\.ensures)? in\b")
        for m in pat.finditer(text):
            at = found(alias[m.group(2)], m.group(3).count(".before"), m.group(4))
            if at:
                steps[m.group(1)] = (at, m.group(4), m.group(5) or "")

        def turn(m):
            at, step, rest = alias[m.group(1)], m.group(3), m.group(4)
            here = found(at, m.group(2).count(".before"), step)
            if here is None:
                self.said.append(f"{label}: no step for {m.group(0)}")
                return var + "." + step + rest
            if re.fullmatch(r"(?:shared[-_])?slice[-_]known\d*", step) and rest.startswith(".given"):
                own = self.place[here][2][0].replace("-", "_")
                got = [x for x, y in self.typed.get(place, []) if y.replace("-", "_") == own]
                if got:
                    return var + ".type_inv." + got[0] + rest[len(".given") :]
            if step not in SELF:
                by_arm = arm(here, self.place[here][2][0], rest)
                if by_arm:
                    return var + "." + by_arm
            new = step if step in SELF else self.place[here][2][1]
            return var + "." + new + tail(here, step, rest)

        text = re.sub(r"(?<![\w.'-])(" + names + r")((?:\.before)*)\.(?!before\b)([^\s(){}\[\].,;:=λ]+)((?:\.[^\s(){}\[\].,;:=λ]+)*)", turn, text)
        if steps:
            by = "|".join(map(re.escape, sorted(steps, key=len, reverse=True)))
            text = re.sub(
                r"(?<![\w.'-])(" + by + r")((?:\.[^\s(){}\[\].,;:=λ]+)+)",
                lambda m: m.group(1) + tail(steps[m.group(1)][0], steps[m.group(1)][1], steps[m.group(1)][2] + m.group(2))[len(steps[m.group(1)][2]) :],
                text,
            )
        for m in re.finditer(r"(?<![\w.'-])(" + names + r")((?:\.before)+)(?![\w.-])", text):
            self.said.append(f"{label}: a place by itself: {m.group(0)}")
        return text


def untested(body):
    """The test of `if !x` says what x is: `not-true _ t` is t now, and elsewhere `ap not t` is what the walk had."""
    path = r"c(?:\.[\w'-]+)*\.if-not-[\w'-]+\.(?:true|false)(?![\w.-])"
    for k in (r"\(not-(?:true|false) (?:_|[\w.'-]+|\([^()]*\)) (" + path + r")\)", r"(?<![\w.'-])not-(?:true|false) (?:_|[\w.'-]+|\([^()]*\)) (" + path + ")"):
        body = re.sub(k, lambda m: "@" + m.group(1) + "@", body)
    body, n = re.subn(r"(?<![\w.'@-])(" + path + ")(?!@)", r"(ap not \1)", body)
    return body.replace("@", ""), n > 0


def wrapped(t, fields):
    """A body that is a pair by a lemma, as a record of its parts."""
    if re.search(r"(?s)(^|\bin\s)\s*(search|grind)\b[^\n]*$", t) or len(fields) < 2:
        return t
    depth, last, k = 0, 0, 0
    lets = 0
    for m in re.finditer(r"[(\[{]|[)\]}]|(?<![\w'-])(?:let|in)(?![\w'-])", t):
        w = m.group(0)
        if w in "([{":
            depth += 1
        elif w in ")]}":
            depth -= 1
        elif depth == 0 and w == "let":
            lets += 1
        elif depth == 0 and w == "in":
            lets -= 1
            if lets == 0:
                last = m.end()
    head, term = t[:last], t[last:].strip()
    n = len(fields)
    inner = ";".join(f"\n      {f} = all{'.1' * min(i, n - 1)}{'' if i == n - 1 else '.0'}" for i, f in enumerate(fields))
    return f"{head}\n    let all = {term} in record {{{inner}\n    }}"


def as_record(body, fields):
    """A tuple at the end of a body, after its lets, with a field for each clause."""
    t = body.rstrip()
    if not t.endswith(")"):
        return wrapped(t, fields)
    depth, i = 0, len(t)
    while i > 0:
        i -= 1
        depth += (t[i] in ")]}") - (t[i] in "([{")
        if depth == 0:
            break
    before = t[:i].rstrip()
    if before and not re.search(r"(?<![\w'-])in$", before):
        return wrapped(t, fields)
    def comma_parts(inside):
        parts, cur, depth = [], "", 0
        for ch in inside:
            depth += (ch in "([{") - (ch in ")]}")
            if ch == "," and depth == 0:
                parts.append(cur)
                cur = ""
            else:
                cur += ch
        if cur.strip():
            parts.append(cur)
        return parts

    parts = comma_parts(t[i + 1 : -1])
    while 1 < len(parts) < len(fields):
        last = parts[-1].strip()
        if not (last.startswith("(") and last.endswith(")")):
            break
        depth = 0
        for k, ch in enumerate(last):
            depth += (ch in "([{") - (ch in ")]}")
            if depth == 0:
                break
        more = comma_parts(last[1:-1])
        if k != len(last) - 1 or len(more) < 2:
            break
        parts = parts[:-1] + more
    if len(parts) != len(fields):
        return wrapped(t, fields)
    inner = ";".join(f"\n      {f} = {q.strip()}" for f, q in zip(fields, parts))
    return t[:i] + "record {" + inner + "\n    }"


SELF = ("args", "requires", "ranges", "type_inv", "utf8")


def substitute(body, table):
    names = "|".join(map(re.escape, sorted(table, key=len, reverse=True)))
    if not names:
        return body
    return re.sub(r"(?<![\w.'₀-₉-])(" + names + r")(?![\w'₀-₉-])", lambda m: table[m.group(1)], body)


def split_args(text):
    """The arguments of an application: atoms and parenthesised terms."""
    args, depth, cur = [], 0, ""
    for ch in text:
        if ch in "([{":
            depth += 1
        if ch in ")]}":
            depth -= 1
        if ch.isspace() and depth == 0:
            if cur:
                args.append(cur)
            cur = ""
        else:
            cur += ch
    if cur:
        args.append(cur)
    return args


def convert(crate, folder, path, names, said):
    label = ".".join(path)
    file = os.path.join(folder, "Proof.antt")
    text = open(file, encoding="utf-8").read().replace(".Block-of", ".block_of").replace("word_Makes", "word_makes")
    cycle = path[-1].startswith("+")
    if cycle:
        text, measure = unwound(text, path, names, said)
    walk = Walk(names, said, cycle)
    module = f"Rattle.{crate}.proofs.{label}"
    head, answers, invariants, helpers = [], [], [], []
    comments = []
    need_not = False
    bodies = {}
    typed_as = {}
    for b in blocks(text):
        while b and not b[-1].strip():
            b.pop()
        lead = [l for l in b if l.startswith("--")]
        rest = [l for l in b if not l.startswith("--")]
        if not rest:
            comments += lead
            continue
        if rest[0].startswith("use "):
            for l in rest:
                if re.match(r"use Rattle\." + crate + r"\.proofs\." + re.escape(label) + r"\.(Statement|Tie)\b", l) or ".Statement.{statement}" in l or " as tie" in l:
                    continue
                if l.strip():
                    head.append(l)
            if lead and not head:
                comments += lead
            elif lead:
                comments += lead
            continue
        m = DECL.match(rest[0])
        if not m:
            helpers.append("\n".join(lead + rest))
            continue
        mods, name, typ = m.groups()
        typ_full = typ
        k = 1
        while k < len(rest) and rest[k].startswith("    ") and not rest[k].startswith(name):
            typ_full += " " + rest[k].strip()
            k += 1
        unfolding = [l for l in rest[k:] if l.startswith("unfolding")]
        clause = [l for l in rest[k:] if not l.startswith("unfolding")]
        inv = re.match(r"tie\.(invariant|decreases)-(" + IDENT + r")$", typ.strip())
        need = re.match(r"tie\.Need-(" + IDENT + r")", typ.strip())
        if inv:
            kind, loop = inv.groups()
            found = [i for i, l in enumerate(names["loops"]) if l[0][0].replace("_", "-") == loop.replace("_", "-")]
            if not found:
                said.append(f"{label}: no loop {loop}")
                continue
            i = found[0]
            (old, new), variables = names["loops"][i]
            changed = names["changed"][i]
            joined = "\n".join(clause)
            lhs, body = joined.split("=", 1) if False else re.match(r"([^=]*?)\s=(?=\s)(.*)", joined, re.S).groups()
            params = lhs.split()[1:]
            targets = [f"l.initial.{v}" if c else f"l.{v}" for v, c in zip(variables, changed)] + [f"l.{v}" for v, c in zip(variables, changed) if c]
            if len(params) != len(targets):
                said.append(f"{label}: {kind}-{loop} has {len(params)} parameters, {len(targets)} known: {params} {targets}")
            table = {p: t for p, t in zip(params, targets) if p != "_"}
            body = substitute(body, table)
            if not params and body.strip() in bodies:
                body = bodies[body.strip()]
                said.pop()
            bodies[name] = body
            invariants.append("\n".join(lead + [f"abbrev pub {kind}-{new} : goal.{kind}-{new}"] + unfolding + [f"{kind}-{new} l ={body}"]))
        elif need:
            old = need.group(1)
            it = walk.need(old)
            if it is None:
                said.append(f"{label}: no goal for {old} (needs: {sorted(walk.needs)})")
                continue
            new, place = it
            typed_as[name] = walk.back[new]
            joined = "\n".join(clause)
            mm = re.match(r"(" + IDENT + r")((?:\s+[^=]*?)?)\s=(?=\s)(.*)", joined, re.S)
            if not mm or not joined.startswith(name):
                said.append(f"{label}: clause of {old} not read")
                helpers.append("\n".join(lead + rest))
                continue
            params = mm.group(2).split()
            body = mm.group(3)
            if "\n" + name + " " in body:
                said.append(f"{label}: {old} has several clauses")
            var = params[0] if params else "c"
            extra = "".join(" " + p for p in params[1:] if not p.startswith("κ"))
            if var == "_":
                var = "c"
            body = walk.paths(body, place, var, f"{label}/{old}")
            body, nots = untested(body)
            need_not = need_not or nots
            fields = names["asked"].get(walk.back[new])
            if fields:
                body = as_record(body, fields)
            if not params and not body.strip().startswith("λ"):
                answers.append((new, "\n".join(lead + [f"pub {new} : goal.{new}"] + unfolding + [f"{new}{' t' if cycle else ''} ={body}"])))
                continue
            if body.strip() == "search rules" and not unfolding:
                continue
            answers.append((new, "\n".join(lead + [f"pub {new} : goal.{new}"] + unfolding + [f"{new} {'t ' if cycle else ''}{var}{extra} ={body}"])))
        elif "statement" in typ:
            joined = " ".join(l.strip() for l in clause)
            inner = re.sub(r".*?\btie\.spec\b", "", joined, count=1).strip()
            # the closing parenthesis of `close (tie.spec ..)`
            depth = 0
            for k2, ch in enumerate(inner):
                depth += (ch in "([{") - (ch in ")]}")
                if depth < 0:
                    inner = inner[:k2]
                    break
            args = split_args(inner)
            seq = [n for n, _ in names["needs"]]
            placed = []
            for arg in args:
                m2 = re.match(r"\(λ (" + IDENT + r")", arg)
                if m2 and walk.need(m2.group(1)) and m2.group(1) not in ("c", "_"):
                    placed.append(walk.back[walk.need(m2.group(1))[0]])
                elif arg in typed_as:
                    placed.append(typed_as[arg])
                else:
                    placed.append(None)
            own = [k2 for k2, arg in enumerate(args) if arg not in bodies]
            if len(own) == len(seq):
                for k2, n in zip(own, seq):
                    placed[k2] = n
            # what stands between two that are known goes in order
            i = 0
            while i < len(args):
                if placed[i] is None and args[i].startswith("("):
                    j = i
                    while j < len(args) and placed[j] is None:
                        j += 1
                    before = [p for p in placed[:i] if p in seq]
                    after = [p for p in placed[j:] if p in seq]
                    lo = seq.index(before[-1]) + 1 if before else 0
                    hi = seq.index(after[0]) if after else len(seq)
                    free = [n for n in seq[lo:hi] if n not in placed]
                    if len(free) == j - i:
                        placed[i:j] = free
                    i = j
                else:
                    i += 1
            for arg, old in zip(args, placed):
                m2 = re.match(r"\(λ (" + IDENT + r")((?:\s+" + IDENT + r")*)\.\s(.*)\)$", arg, re.S)
                if not m2:
                    if arg.startswith("("):
                        said.append(f"{label}: argument not read: {arg[:80]}")
                    continue
                var, more, body = m2.groups()
                more = "".join(" " + p for p in more.split() if not p.startswith("κ"))
                if body.strip() == "search rules":
                    continue
                if old is None:
                    said.append(f"{label}: inline answer not placed: {arg}")
                    continue
                new, place = walk.need(old)
                body2 = walk.paths(body, place, var, f"{label}/{old}")
                body2 = re.sub(r"(?<![\w.'-])" + re.escape(var) + r"(?![\w'-])", "c", body2)
                body2, nots = untested(body2)
                need_not = need_not or nots
                if not any(n == new for n, _ in answers):
                    answers.append((new, "\n".join([f"pub {new} : goal.{new}"] + unfolding + [f"{new} {'t ' if cycle else ''}c{more} = {body2}"])))
            names_in = [a for a in split_args(re.sub(r".*tie\.spec", "", joined, count=1).rstrip(")")) if re.fullmatch(IDENT, a)]
        else:
            helpers.append("\n".join(lead + rest))
    if re.search(r"(?<![\w.])tie\.", "\n".join(helpers)):
        said.append(f"{label}: a helper names tie")
    order = {b: i for i, (a, b) in enumerate(names["needs"])}
    answers.sort(key=lambda p: order.get(p[0], 1000))
    # an answer that another one cites goes by its name of today, and stands above it
    new_of = {k: walk.need(v)[0] for k, v in typed_as.items()}
    if new_of:
        pat = re.compile(r"(?<![\w.'-])(" + "|".join(map(re.escape, sorted(new_of, key=len, reverse=True))) + r")(?![\w'-])")
        turned = []
        for n, t in answers:
            lines = t.split("\n")
            k = next((i for i, l in enumerate(lines) if l.startswith(n + " ")), 0)
            body = "\n".join(lines[k:])
            cut = body.index("=") + 1
            body = body[:cut] + pat.sub(lambda m: new_of[m.group(1)], body[cut:])
            turned.append((n, "\n".join(lines[:k] + [body])))
        cites = {n: [m for m in new_of.values() if m != n and re.search(r"(?<![\w.'-])" + re.escape(m) + r" c(?![\w'-])", t[t.index("=", t.index("\n" + n)) :])] for n, t in turned}
        done, out = set(), []

        def put(n, t, depth=0):
            if n in done or depth > 20:
                return
            for m in cites[n]:
                for n2, t2 in turned:
                    if n2 == m:
                        put(n2, t2, depth + 1)
            if n not in done:
                done.add(n)
                out.append((n, t))

        for n, t in turned:
            put(n, t)
        answers = out
    inv_text = "\n\n".join(invariants)
    ans_text = "\n\n".join(t for _, t in answers)
    used_in_inv = [h for h in helpers if (d := DECL.match([l for l in h.split("\n") if not l.startswith("--")][0])) and re.search(r"(?<![\w.'-])" + re.escape(d.group(2)) + r"(?![\w'-])", inv_text)]
    if invariants:
        body = inv_text
        if used_in_inv:
            said.append(f"{label}: helpers used in invariants: " + ", ".join(DECL.match([l for l in h.split(chr(10)) if not l.startswith('--')][0]).group(2) for h in used_in_inv))
            body = "\n\n".join(re.sub(r"(?m)^(?!pub)((?:abbrev |unfoldable )?)(" + IDENT + r" :)", r"\1pub \2", h, count=1) for h in used_in_inv) + "\n\n" + body
        with open(os.path.join(folder, "Invariants.antt"), "w", encoding="utf-8") as f:
            f.write("\n".join(comments + head + [f"use {module}.Given as goal"]) + "\n\n" + body + "\n")
    if cycle and measure:
        with open(os.path.join(folder, "Invariants.antt"), "w", encoding="utf-8") as f:
            f.write("\n".join(comments + [f"use {module}.Given as goal"]) + "\n\n" + measure + "\n")
        invariants = [measure]
    rest_helpers = [h for h in helpers if h not in used_in_inv]
    if answers:
        imports = list(head)
        if need_not:
            for mod, nm in (("mathlib.Core.Path", "ap"), ("mathlib.Core.Bool", "not")):
                if not any(re.search(r"[{ ,]" + nm + r"[,}]", h) for h in imports):
                    imports.insert(0, f"use {mod}.{{{nm}}}")
        if used_in_inv:
            ns = [DECL.match([l for l in h.split("\n") if not l.startswith("--")][0]).group(2) for h in used_in_inv]
            imports.append(f"use {module}.Invariants.{{{', '.join(ns)}}}")
        parts = rest_helpers + [ans_text]
        with open(os.path.join(folder, "Answers.antt"), "w", encoding="utf-8") as f:
            f.write("\n".join(([] if invariants else comments) + imports + [f"use {module}.Goals as goal"]) + "\n\n" + "\n\n".join(parts) + "\n")
    elif rest_helpers:
        said.append(f"{label}: helpers but no answers: dropped with the walk")
    os.remove(file)


def unwound(text, path, names, said):
    """The text of a cycle's walk as that of a function, and the measure."""
    f = path[-1][1:]
    m = re.search(r"(?m)^(?:abbrev )?μ-[^\n]* (\w+) = \1((?:\.1)*)\.0$", text)
    measure = ""
    own = [v for k, v in names["params"].items() if k.endswith("::" + f)]
    if m and own:
        measure = f"abbrev pub decreases-{f} : goal.decreases-{f}\ndecreases-{f} l = l.{own[0][m.group(2).count('.1')]}"
    else:
        said.append(f"{'.'.join(path)}: no measure")
    text = re.sub(r"(?m)^(abbrev )?μ-.*\n", "", text)
    out, inside = [], False
    for line in text.split("\n"):
        if line.startswith("module _ "):
            inside = True
            continue
        if inside and line and not line.startswith("  "):
            inside = False
        out.append(line[2:] if inside else line)
    text = "\n".join(out)
    for name in ("entry", "below", "claims"):
        text = re.sub(r"(?m)^(?:--.*\n)?abbrev " + name + r" :.*\n(?:" + name + r" .*\n)", "", text)
    text = re.sub(r"[\w'+-]+-lts\.Need-", "tie.Need-", text)
    text = re.sub(r"(?m)^use .*(Lts-|\.Reads as|\.Kinds as|\.Tie\.|\.\{statement\}|PlainCycle|Fn\.Kinds).*\n", "", text)
    return text, measure


def main():
    crate_folder, json_file, *only = sys.argv[1:]
    crate = os.path.basename(os.path.abspath(crate_folder))
    names = json.load(open(json_file, encoding="utf-8"))
    said = []
    proofs = os.path.join(crate_folder, "proofs")
    for folder, dirs, fs in os.walk(proofs):
        dirs.sort()
        if "Proof.antt" not in fs:
            continue
        path = os.path.relpath(folder, proofs).split(os.sep)
        label = ".".join(path)
        if only and label not in only:
            continue
        key = f"Rattle-{crate}-proofs.{label}.Lts" + (path[-1].replace("+", "-", 1) if path[-1].startswith("+") else "")
        if key not in names:
            said.append(f"{label}: no names ({[k for k in names if label.split('.')[-1].lstrip('+') in k][:4]})")
            continue
        convert(crate, folder, path, names[key], said)
    print("\n".join(said))


main()
