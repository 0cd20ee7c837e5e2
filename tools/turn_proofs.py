#!/usr/bin/env python3
"""Turns Proof.antt files that answer goals by name into Invariants.antt and Answers.antt.

usage: turn_proofs.py NAMES CRATE..   at the top: NAMES/CRATE/names.json is what `rattle check --generated --old-names` wrote
"""
import json
import os
import re
import sys

NAME = r"[^\s.(){}\[\],;λ→=\"]+"
PATH = re.compile(rf"(?<![^\s(\[{{,;←=]){NAME}(?:\.{NAME})+")


# Steps that a script took for words of the library's.
GARBLED = {"end_of_lem": "end_of", "step_block": "step_block", "base_isword": "base_word"}


def norm(s):
    s = s.replace("-", "_").lower()
    return GARBLED.get(s, s)


def bare(s):
    s = norm(s)
    return s[len("overflow_"):] if s.startswith("overflow_") else s


def items(text):
    """Top-level items: each begins at column 0, with the comment lines above it."""
    out, cur = [], []
    for line in text.split("\n"):
        starts = line and not line[0].isspace() and line[0] not in ")}]"
        if starts and cur and not all(l.startswith("--") or not l.strip() for l in cur):
            out.append(cur)
            cur = []
        cur.append(line)
    if cur:
        out.append(cur)
    return ["\n".join(c).rstrip() for c in out]


def spec_arguments(text):
    """The arguments of each `.spec` in the text: one list for each function."""
    out = []
    for m in re.finditer(r"(\S*)\.spec\b", text):
        at, args = m.end(), []
        while at < len(text):
            if text[at].isspace():
                at += 1
            elif text[at] in "([{":
                depth, start = 0, at
                while at < len(text):
                    depth += (text[at] in "([{") - (text[at] in ")]}")
                    at += 1
                    if depth == 0:
                        break
                args.append(text[start:at])
            elif text[at] in ")]},":
                break
            else:
                start = at
                while at < len(text) and not text[at].isspace() and text[at] not in ")]},":
                    at += 1
                args.append(text[start:at])
        out.append((m.group(1).lstrip("("), args))
    return out


def place_inline(inline, groups, funcs, plain, bad):
    """The answers written as λ in a function's list, each with the index of its goal."""
    need_of = {}
    for name, sig, _ in groups:
        m = re.search(rf":\s*(?:\(t : ℕ\) →\s*)?({NAME})\.Need-(\S+)", sig)
        if m:
            need_of[name] = bare(m.group(2))
    out = []
    for which, args in inline:
        args = [a for a in args if not re.match(r"(invariant|decreases)-", a)]
        if not plain:
            args = args[3:]
        fs = list(funcs.values()) if plain else [f for n, f in funcs.items() if norm(n) == norm(which.replace("-lts", ""))]
        if not fs:
            bad.append(f"whose list {which}")
            continue
        f = fs[0]
        needs = [bare(n[0]) for n in f.e["needs"]]
        anchors = {}
        for k, a in enumerate(args):
            a = re.sub(r"^\((\S+) t\)$", r"\1", a)
            if a in need_of and need_of[a] in needs:
                anchors[k] = needs.index(need_of[a])
        for k, a in enumerate(args):
            m = re.match(r"\(λ ([^.]*)\. (.*)\)$", a, re.S)
            if not m or m.group(2).strip() == "search rules":
                continue
            if len(args) == len(needs):
                idx = k
            else:
                below = [j for j in anchors if j < k]
                above = [j for j in anchors if j > k]
                lo = (max(below), anchors[max(below)]) if below else (-1, -1)
                hi = (min(above), anchors[min(above)]) if above else (len(args), len(needs))
                if hi[0] - lo[0] != hi[1] - lo[1]:
                    bad.append(f"list {len(args)} for {len(needs)}: not placed: {a[:300]}")
                    continue
                idx = lo[1] + k - lo[0]
            names = [n for n in m.group(1).split() if n != "κs"]
            out.append((f, idx, names, m.group(2)))
    return out


class Function:
    def __init__(self, info, cycle=False):
        self.e = info
        self.cycle = cycle
        self.places = {p[0]: (i, p) for i, p in enumerate(info["places"])}
        self.log = []

    def parent(self, place):
        return self.places[place][1][1]

    def named(self, origin, place, step):
        """Of the places from the origin up, one with a step of that name: the nearest to the place."""
        way = [origin]
        while self.parent(way[-1]):
            way.append(self.parent(way[-1]))
        at = way.index(place) if place in way else 0
        fit = [k for k, w in enumerate(way) if norm(self.places[w][1][2][0]) == norm(step) and self.parent(w)]
        return way[min(fit, key=lambda k: abs(k - at))] if fit else None

    def new_path(self, place, comps, origin=None):
        """The new path of c.comps at the place; or None with the place if it is a place alone. The origin is where the goal is asked."""
        origin = origin or place
        while comps and comps[0] == "before":
            up = self.parent(place)
            if up is None:
                comps = [x for x in comps if x != "before"]
                break
            place, comps = up, comps[1:]
        if not comps:
            return place, None
        step, rest = comps[0], comps[1:]
        i, p = self.places[place]
        if step in ("args", "requires", "ranges", "well-formed", "well_formed"):
            step = norm(step)
            pre = self.e.get("pre")
            if step == "requires" and self.cycle and rest:
                if rest[0] == "0":
                    return place, ".".join(["c", "decreases", *rest[1:]])
                rest = rest[1:]
            if step == "requires" and pre and rest:
                rest = self.fields(rest, pre["fields"], pre.get("before", 0))
            return place, ".".join(["c", step, *rest])
        # a slice's elements fit
        m = re.match(r"(shared_)?slice_known", norm(step))
        if m:
            for var, s in self.e["typed"][i]:
                if norm(s) == norm(step):
                    return place, ".".join(["c.type_inv", var, *[r for r in rest if r != "given"]])
        arm = self.e["arms"][i]
        if arm:
            # the innermost place of the arm that is below or here: this one
            for new, old, path in sorted(arm[2], key=lambda t: -len(t[2])):
                if norm(old) == norm(step) and rest[: len(path)] == path:
                    return place, ".".join(["c", arm[0], new, *rest[len(path):]])
        if norm(step) != norm(p[2][0]):
            # the older kit counted its steps otherwise: the step of that name on the way
            near = self.named(origin, place, step)
            if near is None:
                self.log.append(f"step {step} at {place}, which has {p[2][0]}")
            else:
                return near, self.new_path(near, comps, origin)[1]
        new = p[2][1]
        for a, b in p[4]:
            if rest and rest[0] == a:
                rest = [b, *rest[1:]]
                break
        cl = self.e["clauses"][i]
        if cl and rest and rest[0] == "ensures":
            rest = ["ensures", *self.fields(rest[1:], cl["fields"], cl.get("text", 0))]
        if p[3] and len(rest) > 1 and rest[0] == "new":
            ps = self.e["params"].get(p[3])
            if ps:
                rest = ["new", *self.fields(rest[1:], ps, 0)]
        return place, ".".join(["c", new, *rest])

    @staticmethod
    def fields(rest, names, before):
        """`1.0` of a tuple of nested pairs as the name of its part."""
        k, n = 0, len(names) + before
        r = list(rest)
        while r and r[0] == "1" and k < n - 1:
            k, r = k + 1, r[1:]
        if k < n - 1:
            if r and r[0] == "0":
                r = r[1:]
            else:
                return rest
        if k < before:
            return rest
        return [names[k - before], *r]


def turn_body(f, place, body):
    """The body with its paths turned; lets that name a place alone go."""
    alias = {"c": place}
    out, at = [], 0
    let = re.compile(rf"let ({NAME}) = ({NAME}(?:\.{NAME})*) in\b[ \n]*")
    while True:
        m = let.search(body)
        found = None
        for m in let.finditer(body):
            comps = m.group(2).split(".")
            if comps[0] in alias:
                there, new = f.new_path(alias[comps[0]], comps[1:], place)
                if new is None:
                    found = (m, there)
                    break
                if new.rsplit(".", 1)[-1] in ("requires", "ensures"):
                    found = (m, None)
                    break
        if not found:
            break
        m, there = found
        body = body[: m.start()] + body[m.end():]
        if there is None:
            # a contract whose clauses have names now: its parts are written out
            body = re.sub(rf"(?<![^\s({{\[,;←=]){re.escape(m.group(1))}(?=[.\s)}}\];,]|$)", m.group(2), body)
        else:
            alias[m.group(1)] = there

    def path(m):
        comps = m.group(0).split(".")
        if comps[0] not in alias:
            return m.group(0)
        tail = ""
        there, new = f.new_path(alias[comps[0]], comps[1:], place)
        if new is None:
            f.log.append(f"a place alone: {m.group(0)}")
            return m.group(0)
        return new + tail

    body = PATH.sub(path, body)
    return body


def words(text):
    return set(re.findall(r"[^\s(){}\[\],;.]+", text))


def used(use, text):
    """The use line with the names alone that the text has."""
    m = re.match(r"use ([^\s{]+)\.\{(.*)\}$", use.replace("\n", " "), re.S)
    if not m:
        m = re.match(r"use ([^\s{]+) as (\S+)$", use)
        if m:
            return use if re.search(rf"(?<![\w'-]){re.escape(m.group(2))}\.", text) else None
        m = re.match(r"use ([^\s{]+)$", use)
        if m:
            last = m.group(1).rsplit(".", 1)[1]
            return use if last + "." in text else None
        return use
    toks = words(text)
    keep = []
    for n in re.split(r"\s*,\s*", m.group(2).strip()):
        n = n.strip()
        if not n:
            continue
        plain = n.split(" as ")[-1].strip()
        parts = [x for x in plain.split("◌") if x]
        if plain == "[]":
            if "[]" in text or "[ ]" in text:
                keep.append(n)
            continue
        if "◌" in plain and not parts:
            keep.append(n)
        elif all(x in toks or any(x in t for t in toks) for x in parts) if "◌" in plain else plain in toks:
            keep.append(n)
    return f"use {m.group(1)}.{{{', '.join(keep)}}}" if keep else None


def tuple_parts(body):
    """The parts of `(a, b, ..)`, or of `(a, (b, c))` flattened by the caller."""
    b = body.strip()
    if not (b.startswith("(") and b.endswith(")")):
        return None
    depth, parts, last = 0, [], 1
    for i, ch in enumerate(b):
        if ch in "([{":
            depth += 1
        elif ch in ")]}":
            depth -= 1
            if depth == 0 and i < len(b) - 1:
                return None
        elif ch == "," and depth == 1:
            parts.append(b[last:i].strip())
            last = i + 1
    parts.append(b[last:-1].strip())
    parts = [x for x in parts if x]
    return parts if len(parts) > 1 else None


def lets(body):
    """The leading lets, and what follows them."""
    at, n = 0, len(body)
    while True:
        m = re.compile(r"\s*let\b").match(body, at)
        if not m:
            return body[:at], body[at:]
        depth = 0
        for t in re.compile(r"\blet\b|(?<![\w'.-])in\b(?![\w'-])").finditer(body, m.start()):
            depth += 1 if t.group(0) == "let" else -1
            if depth == 0:
                at = t.end()
                break
        else:
            return body[:at], body[at:]


def as_record(body, fields):
    front, body = lets(body)
    if body.strip().startswith(("λ", "search", "record", "omega", "elim", "first_of", "grind")):
        return None
    r = record_of(body, fields)
    if r is None:
        paths = ["p" + ".1" * k + (".0" if k < len(fields) - 1 else "") for k in range(len(fields))]
        r = f"let p = {body.strip()} in record {{ " + "; ".join(f"{n} = {q}" for n, q in zip(fields, paths)) + " }"
    return front + " " + r


def record_of(body, fields):
    parts, rest = [], body
    while len(parts) < len(fields) - 1:
        t = tuple_parts(rest)
        if not t:
            return None
        if len(t) == len(fields) - len(parts):
            parts += t
            rest = None
            break
        if len(t) != 2:
            return None
        parts.append(t[0])
        rest = t[1]
    if rest is not None:
        parts.append(rest)
    if len(parts) != len(fields):
        return None
    return "record { " + "; ".join(f"{n} = {b}" for n, b in zip(fields, parts)) + " }"


def turn(root, crate, key_folder, infos, report):
    """infos: {function name: info}; one for a plain function."""
    folder = os.path.join(root, "crates", crate, "proofs", *key_folder.split("."))
    path = os.path.join(folder, "Proof.antt")
    if not os.path.isfile(path):
        return
    text = open(path, encoding="utf-8").read()
    module = f"Rattle.{crate}.proofs.{key_folder}"
    its = items(text)
    comment, uses, invs, answers, helpers = [], [], [], [], []
    funcs = {n: Function(i, n is not None) for n, i in infos.items()}
    plain = len(funcs) == 1 and None in funcs
    if not plain and "tie." not in text and ".Lts-" not in text:
        report.append(f"{crate}.{key_folder}: by hand")
        return
    if plain and "tie." not in text:
        report.append(f"{crate}.{key_folder}: by hand")
        return
    lts = {}
    inline = []
    bad = []
    for it in its:
        lines = it.split("\n")
        while lines and (lines[0].startswith("--") or not lines[0].strip()):
            comment_line = lines.pop(0)
            if not uses and not invs and not answers and not helpers:
                if comment_line.strip():
                    comment.append(comment_line)
            elif comment_line.strip():
                bad.append("comment dropped: " + comment_line)
        if not lines:
            continue
        it = "\n".join(lines)
        if it.startswith("use "):
            m = re.match(r"use (\S+)\.Lts-(\S+) as (\S+)", it)
            if m:
                lts[m.group(3)] = m.group(2)
                continue
            if re.search(r"\.(Statement|Tie|Reads|Kinds|PlainCycle)\b|borrow\.Fn\.|\.\{statement\}", it):
                continue
            uses.append(it)
            continue
        if re.match(r"pub \+?\S+[-_]spec\b", it):
            continue
        m = re.match(r"\+?\S+[-_]spec\b\s*=(.*)", it, re.S)
        if m:
            inline += spec_arguments(m.group(1))
            continue
        m = re.match(r"\+?\S+[-_]spec\b\s*=", it)
        if m:
            continue
        # the second part of an item: an equation stands alone, so join with its signature
        (answers if False else helpers).append(it)
    # pair signatures with equations
    groups, k = [], 0
    for it in helpers:
        m = re.match(rf"(?:abbrev |pub |unfoldable )*({NAME})\s*:", it)
        if m:
            groups.append([m.group(1), it, []])
        elif groups and (it.startswith(groups[-1][0] + " ") or it.startswith("unfolding ") or it.startswith(groups[-1][0] + "=")):
            groups[-1][2].append(it)
        else:
            groups.append([None, it, []])
    inv_out, ans_out, help_out = [], [], []
    placed = place_inline(inline, groups, funcs, plain, bad)
    inv_names = {}
    for name, sig, eqs in groups:
        whole = "\n".join([sig, *eqs])
        m = re.match(rf"abbrev (invariant|decreases)-\S+ : tie\.(invariant|decreases)-(\S+)", sig)
        if m and plain:
            f = funcs[None]
            loop = norm(m.group(3))
            lp = [(l, c) for l, c in zip(f.e["loops"], f.e["changed"]) if norm(l[0][0]) == loop]
            if not lp:
                bad.append(f"no loop {loop}")
                continue
            (old_new, vars_), changed = lp[0]
            eq = "\n".join(eqs)
            mm = re.match(rf"{re.escape(name)}((?: {NAME})*) =(.*)", eq, re.S)
            if not mm:
                bad.append(f"unread {name}")
                continue
            args = mm.group(1).split()
            body = mm.group(2)
            at = "l" if "l" not in words(body) or "l" in args else "s" if "s" not in words(body) else "at"
            new_args = [(f"{at}.initial." if ch else f"{at}.") + v for v, ch in zip(vars_, changed)]
            new_args += [f"{at}." + v for v, ch in zip(vars_, changed) if ch]
            if len(args) != len(new_args):
                bad.append(f"{name}: {len(args)} arguments for {len(new_args)}")
            sub = dict(zip(args, new_args))
            body = re.sub(rf"(?<![^\s({{\[,;←]){NAME}", lambda t: sub.get(t.group(0), t.group(0)), body)
            new = f"{m.group(1)}-{old_new[1]}"
            unf = [e for e in eqs if e.startswith("unfolding")]
            inv_out.append("\n".join([f"abbrev pub {new} : goal.{new}", *unf, f"{new} {at} ={body}"]))
            continue
        if not plain and re.match(r"abbrev μ-", sig):
            fn = [n for n in funcs if "μ_" + norm(n) == norm(name)]
            if not fn:
                bad.append(f"unread {name}")
                continue
            fn = fn[0]
            e = funcs[fn].e
            ps = [v for k2, v in e["params"].items() if k2.split("::")[-1] == fn]
            eq = "\n".join(eqs)
            mm = re.match(rf"{re.escape(name)} κs a =(.*)", eq, re.S)
            if not mm or not ps:
                bad.append(f"unread {name}")
                continue

            def param(t, ps=ps[0]):
                comps = t.group(0).split(".")[1:]
                k3 = 0
                while comps and comps[0] == "1" and k3 < len(ps) - 1:
                    k3, comps = k3 + 1, comps[1:]
                if comps and comps[0] == "0":
                    comps = comps[1:]
                return ".".join(["l", ps[k3], *comps])

            body = re.sub(rf"(?<![^\s({{\[,;])a(?:\.{NAME})+", param, mm.group(1))
            inv_out.append(f"abbrev pub decreases-{fn} : goal.decreases-{fn}\ndecreases-{fn} l ={body}")
            continue
        if not plain and re.match(r"abbrev \S+-(at|below) :", sig):
            continue
        m = re.search(rf":\s*(?:\(t : ℕ\) →\s*)?({NAME})\.Need-(\S+)", sig)
        if m:
            which = m.group(1)
            f = funcs[None] if plain else funcs.get(next((n for n in funcs if norm(n) == norm(lts.get(which, "?"))), None))
            if f is None:
                bad.append(f"unread {name}")
                continue
            need = bare(m.group(2))
            idx = [k4 for k4, nd in enumerate(f.e["needs"]) if bare(nd[0]) == need]
            if not idx:
                bad.append(f"no need {m.group(2)} ({name})")
                continue
            idx = idx[0]
            new = f.e["needs"][idx][1]
            if not plain and f.e["stem"] and not new.startswith(f.e["stem"]):
                new = f.e["stem"] + new
            place = f.e["asked_at"][idx][0]
            eq = "\n".join(e for e in eqs if not e.startswith("unfolding"))
            unf = [e for e in eqs if e.startswith("unfolding")]
            # an unfolding line may stand in the signature or before the equation in one item
            sig_unf = re.findall(r"^unfolding .*$", sig, re.M)
            mm = re.match(rf"{re.escape(name)}((?: {NAME})*)\s*=(.*)", eq, re.S)
            if not mm:
                u = re.match(r"(unfolding [^\n]*)\n(.*)", eq, re.S)
                if u:
                    unf.append(u.group(1))
                    mm = re.match(rf"{re.escape(name)}((?: {NAME})*)\s*=(.*)", u.group(2), re.S)
            if not mm:
                bad.append(f"unread {name}: {eq[:60]!r}")
                continue
            args = mm.group(1).split()
            args = [a for a in args if a != "κs"]
            body = mm.group(2)
            if body.strip() == "search rules":
                continue
            if args not in (["c"], ["t", "c"]):
                bad.append(f"{name}: arguments {args}")
            body = turn_body(f, place, body)
            fields = (f.e["asked"].get(f.e["needs"][idx][1]) or f.e["asked"].get(f.e["needs"][idx][0]))
            if fields:
                r = as_record(body, fields)
                if r:
                    body = " " + r
                else:
                    bad.append(f"{new}: clauses {fields}")
            ans_out.append("\n".join([f"pub {new} : goal.{new}", *sig_unf, *unf, f"{new} {' '.join(args)} ={body}"]))
            continue
        if plain:
            f = funcs[None]
            pl = re.search(r"tie\.([^\s)]+)", whole)
            while pl:
                i = next((i for i, p in enumerate(f.e["places"]) if norm(p[0]) == norm(pl.group(1))), None)
                if i is None:
                    bad.append(f"no place {pl.group(1)}")
                    break
                if whole[: pl.start()].count("tie.") == 0:
                    whole = turn_body(f, f.e["places"][i][0], whole)
                whole = re.sub(rf"tie\.{re.escape(pl.group(1))}(?: (?:invariant|decreases)-{NAME})*(?![^\s)])", "goal." + f.e["places_by_name"][i], whole)
                pl = re.search(r"tie\.([^\s)]+)", whole)
                bad.append(f"a helper over places: {name}")
        help_out.append(whole)
    for f, idx, args, body in placed:
        new = f.e["needs"][idx][1]
        if f.cycle and f.e["stem"] and not new.startswith(f.e["stem"]):
            new = f.e["stem"] + new
        body = turn_body(f, f.e["asked_at"][idx][0], body)
        fields = (f.e["asked"].get(f.e["needs"][idx][1]) or f.e["asked"].get(f.e["needs"][idx][0]))
        if fields:
            r = as_record(body, fields)
            if r:
                body = r
            else:
                bad.append(f"{new}: clauses {fields}")
        ans_out.append(f"pub {new} : goal.{new}\n{new} {' '.join(args)} = {body.strip()}")
    for n, f in funcs.items():
        bad += f.log
    inv_text, ans_text = "\n\n".join(inv_out), "\n\n".join(ans_out)
    # helpers go where they are used, closed over one another
    def closed(text):
        keep, again = [], True
        have = text
        while again:
            again = False
            for h in help_out:
                m = re.match(rf"(?:abbrev |pub |unfoldable )*({NAME})", h)
                if h not in keep and m and m.group(1) in words(have):
                    keep.append(h)
                    have += "\n" + h
                    again = True
        return [h for h in help_out if h in keep]

    inv_help = closed(inv_text)
    ans_help = [h for h in closed(ans_text) if h not in inv_help]
    wrote = []
    head = "\n".join(comment)
    if inv_out:
        body = "\n\n".join([*inv_help, *inv_out])
        us = [u for u in (used(u, body) for u in uses) if u]
        us.append(f"use {module}.Given as goal")
        top = head + "\n" if head else ""
        open(os.path.join(folder, "Invariants.antt"), "w", encoding="utf-8").write(top + "\n".join(us) + "\n\n" + body + "\n")
        wrote.append("Invariants")
    if ans_out:
        body = "\n\n".join([*ans_help, *ans_out])
        us = [u for u in (used(u, body) for u in uses) if u]
        us.append(f"use {module}.Goals as goal")
        top = head + "\n" if head and not inv_out else ""
        open(os.path.join(folder, "Answers.antt"), "w", encoding="utf-8").write(top + "\n".join(us) + "\n\n" + body + "\n")
        wrote.append("Answers")
    os.remove(path)
    if not os.listdir(folder):
        os.rmdir(folder)
    if bad:
        report.append(f"{crate}.{key_folder}: " + "; ".join(bad))


def main(argv):
    names, crates = argv[0], argv[1:]
    report = []
    for crate in crates:
        d = json.load(open(os.path.join(names, crate, "names.json")))
        by = {}
        for key, info in d.items():
            m = re.match(rf"Rattle-{crate}-proofs\.(.*)\.Lts(?:-(.*))?$", key)
            if m and isinstance(info, dict):
                by.setdefault(m.group(1), {})[m.group(2)] = info
        for folder, infos in by.items():
            turn(".", crate, folder, infos, report)
    print("\n".join(report))


if __name__ == "__main__":
    main(sys.argv[1:])
