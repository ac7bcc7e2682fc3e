#!/usr/bin/env python3
"""Turns the proof files that tie the goals of a function together, Proof.antt, into Invariants.antt and Answers.antt.

usage: turn_proofs.py CRATE NAMES [FUNCTION..]    at the top of the checkout

NAMES is the names.json that `rt check --generated DIR --old-names` writes in the crate's folder. A goal that the check's own search is
to prove gets no answer. What it could not turn it prints, a line each.
"""
import glob
import json
import os
import re
import sys

WORD = r"[^\s(){}\[\];,.\"λ⌜⌝]+"


def norm(label):
    return re.sub(r"-lem$", "", label.replace("_", "-").lower())


def split_declarations(text):
    """The use lines, and the declarations with the comments above them: a list of [name, lines]."""
    uses, decls, comments = [], [], []
    for line in text.splitlines():
        if re.match(r"(pub )?use ", line) and not decls:
            uses.append(line)
        elif line.startswith("--"):
            comments.append(line)
        elif re.match(r"[^\s]", line):
            m = re.match(r"(?:pub |abbrev |unfoldable |opaque )*(?:record |data )?([^\s:]+)[^:]* :", line)
            if m and (not decls or m.group(1) != decls[-1][0] or not line.startswith(m.group(1) + " ") or True) and re.match(r"(?:pub |abbrev |unfoldable |opaque )*(?:record |data )?[^\s:=]+(?: [^:=]*)? : ", line) and not (decls and re.match(re.escape(decls[-1][0]) + r"( |$)", line) and " = " in line and line.index(" = ") < line.index(" : ")):
                decls.append([m.group(1), comments + [line]])
                comments = []
            else:
                if comments:
                    decls[-1][1].extend(comments)
                    comments = []
                decls[-1][1].append(line)
        elif decls:
            decls[-1][1].extend(comments)
            comments = []
            decls[-1][1].append(line)
    return uses, decls


class Functions:
    """Of each function of the sources: its parameters lent for change, and the names of its clauses."""

    def __init__(self, top):
        self.ensures, self.requires, self.lent = {}, {}, {}
        for c in os.listdir(os.path.join(top, "crates")):
            for p in glob.glob(os.path.join(top, "crates", c, "src", "**", "*.rt"), recursive=True):
                with open(p, encoding="utf-8") as f:
                    text = f.read()
                for m in re.finditer(r"\bfn ([a-z_0-9]+)(?:<[^>]*>)?\(", text):
                    end = re.search(r"\n\s*\{\n|\)\s*(?:->[^{;]*)?\{\n", text[m.end():])
                    head = text[m.end():m.end() + (end.start() if end else 4000)]
                    name = m.group(1)
                    depth, i = 1, 0
                    while depth and i < len(head):
                        depth += {"(": 1, ")": -1, "<": 0}.get(head[i], 0)
                        i += 1
                    params = head[:i]
                    self.lent[(c, name)] = re.findall(r"([a-z_0-9]+): &(?:'[a-z]+ )?mut ", params)
                    self.ensures[(c, name)] = re.findall(r"\bensures ([a-z_0-9]*) ?\{", head)
                    self.requires[(c, name)] = re.findall(r"\brequires ([a-z_0-9]*) ?\{", head)

    def of(self, table, callee):
        if not callee:
            return None
        parts = callee.split("::")
        return table.get((parts[0], parts[-1]))


class Turn:
    def __init__(self, info, functions, where):
        self.info = info
        self.f = functions
        self.where = where
        self.places = {p[0]: (i, p) for i, p in enumerate(info["places"])}
        self.said = []

    def say(self, text):
        self.said.append(f"{self.where}: {text}")

    def chain(self, place):
        out = []
        while place is not None:
            i, p = self.places[place]
            out.append((i, p))
            place = p[1]
        return out

    def path(self, var, place, parts, tail):
        """A path `var.before..parts` from a place: the new parts."""
        chain = self.chain(place)
        k = 0
        while parts and parts[0] == "before":
            k += 1
            parts = parts[1:]
        if not parts:
            return None
        step = parts[0]
        if step == "args" and len(parts) > 1:
            parts = [step, parts[1].replace("-", "_")] + parts[2:]
        if step in ("args", "requires", "ranges", "pre", "lifetimes", "well_formed", "type_inv"):
            return ["c"] + parts
        at = [j for j, (i, p) in enumerate(chain) if norm(p[2][0]) == norm(step) and p[2][0]]
        if not at:
            self.say(f"no step {step} above {place}")
            return ["c"] + parts
        j = min(at, key=lambda j: (j != k, abs(j - k), j))
        i, p = chain[j]
        # an arm gives the step other names
        arms = self.info.get("arms") or []
        if len(parts) > 1:
            for jj in range(0, j + 1):
                ii, pp = chain[jj]
                arm = arms[ii] if ii < len(arms) else None
                if not arm:
                    continue
                best = None
                for new, old, path in arm[2]:
                    if norm(old) == norm(step) and path and parts[1:1 + len(path)] == path and (best is None or len(path) > len(best[1])):
                        best = (new, path)
                if best:
                    return ["c", arm[0], best[0]] + parts[1 + len(best[1]):]
        return ["c", p[2][1]] + self.tail(p[3], parts[1:])

    def tail(self, callee, rest):
        """What stands behind a call's step: its parameters by number, and its clauses by number, by name."""
        if callee and re.search(r"::wrapping_(add|sub)_u8$", callee) and rest == ["ensures"]:
            return ["ensures", "value"]
        if rest and rest[0] in ("auto", "new") and len(rest) > 1 and rest[1].isdigit():
            params = self.info["params"].get(callee) or []
            k = 1
            while k < len(rest) and rest[k] == "1":
                k += 1
            n = k - 1
            more = rest[k:]
            if more and more[0] == "0":
                more = more[1:]
            if n < len(params):
                return [rest[0], params[n]] + more
            self.say(f"{callee} {'.'.join(rest)}: no parameter")
        if rest and rest[0] == "ensures":
            return ["ensures"] + self.clauses(self.f.of(self.f.ensures, callee), rest[1:])
        return rest

    def clauses(self, names, rest):
        """Clause by number, each behind the one before, to clause by name."""
        if names and len(names) == 1 and names[0]:
            return [names[0]] + rest
        if not names or len(names) < 2:
            return rest
        n = 0
        while rest and rest[0] in ("0", "1") and n < len(names) - 1:
            if rest[0] == "0":
                return [names[n]] + rest[1:]
            n += 1
            rest = rest[1:]
        if n == len(names) - 1:
            return [names[n]] + rest
        if n:
            self.say(f"clauses from {names[n]} on")
        return rest

    def body(self, text, var, place):
        """An answer's text with the new paths."""
        alias = {var: (place, 0)}
        told, steps = {}, {}

        def resolve(m):
            whole = m.group(0)
            parts = whole.split(".")
            v = parts[0]
            if v in steps:
                return ".".join([v] + self.tail(steps[v], parts[1:]))
            if v in told:
                return ".".join([v] + self.clauses(told[v], parts[1:]))
            if v not in alias:
                return whole
            at, up = alias[v]
            new = self.path(v, at, ["before"] * up + parts[1:], None)
            return ".".join(new) if new else whole

        # lets that only go up
        out, rest = [], text
        pattern = re.compile(r"let (" + WORD + r") = (" + "|".join(["%s"]) + r")((?:\.before)*) in\s*")
        while True:
            m = re.search(r"let (" + WORD + r") = (" + WORD + r")((?:\.before)*) in\s*", rest)
            if not m or m.group(2) not in alias:
                break
            at, up = alias[m.group(2)]
            alias[m.group(1)] = (at, up + m.group(3).count(".before"))
            rest = rest[:m.start()] + rest[m.end():]
        # lets of a call's step
        for m in re.finditer(r"let (" + WORD + r") = (" + WORD + r"(?:\." + WORD + r")*) in", rest):
            parts = m.group(2).split(".")
            if parts[0] in alias:
                q = [x for x in parts[1:] if x != "before"]
                if len(q) == 1 and q[0] not in ("args", "requires", "ranges"):
                    at, up = alias[parts[0]]
                    k = up + len(parts) - 2
                    chain = self.chain(at)
                    hits = [j for j, (i, p) in enumerate(chain) if norm(p[2][0]) == norm(q[0]) and p[2][0]]
                    if hits:
                        steps[m.group(1)] = chain[min(hits, key=lambda j: (j != k, abs(j - k), j))][1][3]
        # lets of a call's clauses
        for m in re.finditer(r"let (" + WORD + r") = (" + WORD + r"(?:\." + WORD + r")*\.ensures) in", rest):
            parts = m.group(2).split(".")
            if parts[0] in alias:
                at, up = alias[parts[0]]
                chain = self.chain(at)
                k = up
                q = parts[1:]
                while q and q[0] == "before":
                    k += 1
                    q = q[1:]
                hits = [j for j, (i, p) in enumerate(chain) if norm(p[2][0]) == norm(q[0]) and p[2][0]]
                if hits:
                    j = min(hits, key=lambda j: (j != k, abs(j - k), j))
                    names = self.f.of(self.f.ensures, chain[j][1][3])
                    if names and len(names) > 1:
                        told[m.group(1)] = names
        # what is known of a slice's items
        def given(m):
            parts = m.group(1).split(".")
            if parts[0] not in alias:
                return m.group(0)
            at, up = alias[parts[0]]
            chain = self.chain(at)
            q = [x for x in parts[1:] if x != "before"]
            k = up + len([x for x in parts[1:] if x == "before"])
            hits = [j for j, (i, p) in enumerate(chain) if norm(p[2][0]) == norm(q[0]) and p[2][0]]
            for j in sorted(hits, key=lambda j: (j != k, abs(j - k), j)):
                for p2 in range(len(self.info["typed"])):
                    for v, step in self.info["typed"][p2]:
                        if step == chain[j][1][2][0]:
                            return f"c.type_inv.{v} {m.group(2)}"
            only = {v for vs in self.info["typed"] for v, step in vs}
            if len(only) == 1:
                return f"c.type_inv.{only.pop()} {m.group(2)}"
            self.say(f"given of {m.group(1)}")
            return m.group(0)
        rest = re.sub(WORD + r"(?:\." + WORD + r")+", resolve, rest)
        # a test of a negation says of what was negated what it is
        what = r"\bnot-(true|false) (?:_|" + WORD + r"(?:\." + WORD + r")*) "
        rest = re.sub(what + r"\((c\.if-" + WORD + r"\.\1)\)", r"\2", rest)
        return re.sub(what + r"(c\.if-" + WORD + r"\.\1)", r"\2", rest)


def tuple_parts(text):
    """The parts of a tuple in parentheses, or None."""
    text = text.strip()
    if not (text.startswith("(") and text.endswith(")")):
        return None
    depth, parts, at = 0, [], 1
    for i, ch in enumerate(text):
        if ch in "([{":
            depth += 1
        elif ch in ")]}":
            depth -= 1
            if depth == 0 and i != len(text) - 1:
                return None
        elif ch == "," and depth == 1:
            parts.append(text[at:i])
            at = i + 1
    parts.append(text[at:-1])
    parts = [p.strip() for p in parts if p.strip()]
    return parts if len(parts) > 1 else None


def as_record(body, names):
    """A body that ends in a tuple, as a record with these fields; None where it does not."""
    # the last `in` at the top
    depth, cut = 0, 0
    for m in re.finditer(r"[()\[\]{}]|(?<!\S)in(?!\S)", body):
        ch = m.group(0)
        if ch in "([{":
            depth += 1
        elif ch in ")]}":
            depth -= 1
        elif depth == 0:
            cut = m.end()
    parts = tuple_parts(body[cut:])
    if not parts:
        if "elim" in body[cut:]:
            return None
        fields = [".1" * i + (".0" if i < len(names) - 1 else "") for i in range(len(names))]
        return body[:cut] + " let all = " + body[cut:].strip() + " in record { " + "; ".join(f"{n} = all{f}" for n, f in zip(names, fields)) + " }"
    while len(parts) < len(names):
        more = tuple_parts(parts[-1])
        if not more:
            return None
        parts = parts[:-1] + more
    if len(parts) != len(names):
        return None
    return body[:cut] + " record { " + "; ".join(f"{n} = {p}" for n, p in zip(names, parts)) + " }"


def used_lines(uses, text):
    """The use lines whose names the text has."""
    words = set(re.findall(WORD, text)) | set(re.findall(r"[^\s(){}\[\];,\"]+", text))
    symbols = text
    out, seen = [], set()
    for line in uses:
        m = re.match(r"((?:pub )?use [^\s{]+\.)\{([^}]*)\}$", line)
        if not m:
            out.append(line)
            continue
        keep = []
        for it in m.group(2).split(","):
            it = it.strip()
            local = it.split(" as ")[-1].strip()
            bare = local.replace("◌", " ").strip()
            if (local in words or (local == "[]" and "[]" in text) or ("◌" in local and any(w.strip("◌") == bare for w in re.split(r"[\s()]+", symbols)))) and local not in seen:
                keep.append(it)
                seen.add(local)
        if keep:
            out.append(m.group(1) + "{" + ", ".join(keep) + "}")
    return out


def main(argv):
    crate, names, only = argv[0], argv[1], argv[2:]
    with open(names, encoding="utf-8") as f:
        table = json.load(f)
    functions = Functions(".")
    for key, info in sorted(table.items()):
        m = re.match(r"Rattle-%s-proofs\.(.*)\.Lts$" % crate, key)
        if not m:
            continue
        module = m.group(1)
        if only and module.split(".")[-1] not in only and module not in only:
            continue
        folder = os.path.join("crates", crate, "proofs", *module.split("."))
        path = os.path.join(folder, "Proof.antt")
        if not os.path.exists(path):
            continue
        with open(path, encoding="utf-8") as f:
            text = f.read()
        if "tie.close" not in text:
            print(f"{module}: no tie.close, left")
            continue
        turn = Turn(info, functions, module)
        uses, decls = split_declarations(text)
        top_comment = []
        lines = text.splitlines()
        while lines and lines[0].startswith("--"):
            top_comment.append(lines.pop(0))
        close = decls.pop() if re.search(r"[-_]spec$", decls[-1][0]) else None
        order = []
        if close:
            m2 = re.search(r"\(tie\.spec([^)]*)\)", "\n".join(close[1]))
            order = m2.group(1).split() if m2 else []
        uses = [u for u in uses if ".Statement.{statement}" not in u and not re.search(r"\.Tie as tie$", u)]
        invs, answers, helpers = [], [], []
        needs = []
        bodies = {n: ls for n, ls in decls}
        loops = list(info["loops"])
        proven = []
        for name in order:
            ls = bodies.get(name)
            if ls is None:
                turn.say(f"no declaration {name}")
                proven.append(name)
                continue
            sig = [l for l in ls if not l.startswith("--")][0]
            if re.search(r" : tie\.(invariant|decreases)-", sig):
                continue
            proven.append(name)
        at_need = {n: i for i, n in enumerate(proven)}
        if len(proven) != len(info["needs"]):
            turn.say(f"{len(proven)} answers for {len(info['needs'])} goals")
            wanted = [norm(old) for old, _ in info["needs"]]
            at_need, i = {}, 0
            for n in proven:
                ls = bodies.get(n)
                label = re.search(r" : tie\.Need-(\S+)", "\n".join(ls or []))
                a = norm(label.group(1)) if label else ""
                names = (a, re.sub(r"^(overflow|nonzero|bounds|offset-bounds|slice-bounds)-", "", a), "part-" + a[len("slice-bounds-"):])
                hits = [j for j in range(len(wanted)) if wanted[j] in names and j not in at_need.values()]
                if hits:
                    at_need[n] = hits[0]
                else:
                    turn.say(f"{n}: {a} is no goal today")
        for name, ls in decls:
            comments = [l for l in ls if l.startswith("--")]
            code = [l for l in ls if not l.startswith("--")]
            if comments and comments == top_comment:
                comments = []
            sig = code[0]
            m3 = re.search(r" : tie\.(invariant|decreases)-(\S+)", sig)
            if m3:
                kind, label = m3.group(1), m3.group(2)
                hit = [x for x in loops if norm(x[0][0]) == norm(label)]
                if not hit:
                    turn.say(f"no loop {label}")
                    continue
                i = loops.index(hit[0])
                (old, new), variables = hit[0]
                changed = info["changed"][i] if i < len(info["changed"]) else [True] * len(variables)
                body = "\n".join(code[1:])
                unfolding = ""
                mm = re.match(r"(unfolding [^\n]*\n)?" + re.escape(name) + r"((?: (?!= )" + WORD + r")*) =(.*)$", body, re.S)
                if not mm:
                    turn.say(f"{name}: not read")
                    continue
                params = mm.group(2).split()
                want = len(variables) + sum(1 for x in changed if x)
                sub = {}
                moved = [v for v, c in zip(variables, changed) if c]
                if len(params) != want:
                    turn.say(f"{name}: {len(params)} variables, {want} wanted")
                for j, p in enumerate(params[:len(variables)]):
                    v = variables[j]
                    sub[p] = f"l.initial.{v}" if changed[j] else f"l.{v}"
                for j, p in enumerate(params[len(variables):]):
                    if j < len(moved):
                        sub[p] = f"l.{moved[j]}"
                expr = re.sub(WORD, lambda w: sub[w.group(0)] if w.group(0) in sub and not (w.start() and w.string[w.start() - 1] == ".") else w.group(0), mm.group(3))
                invs.append("\n".join(comments + [f"abbrev pub {kind}-{new} : goal.{kind}-{new}"] + ([mm.group(1).rstrip()] if mm.group(1) else []) + [f"{kind}-{new} l ={expr}"]))
                continue
            if name in proven:
                if name not in at_need or at_need[name] >= len(info["needs"]):
                    continue
                i = at_need[name]
                old, new = info["needs"][i]
                label = re.search(r" : tie\.Need-(\S+)", sig)
                if label:
                    a, b = norm(label.group(1)), norm(old)
                    a2 = re.sub(r"^(overflow|nonzero|bounds|offset-bounds)-", "", a)
                    if b not in (a, a2) and a2 not in b:
                        turn.say(f"{name}: {label.group(1)} beside {old}")
                place = info["asked_at"][i][0]
                body = "\n".join(code[1:])
                mm = re.match(r"((?:unfolding [^\n]*\n)?)" + re.escape(name) + r"((?: (?!= )" + WORD + r")*) =(.*)$", body, re.S)
                if not mm:
                    turn.say(f"{name} ({new}): not read, kept as it is")
                    answers.append("\n".join(comments + [f"pub {new} : goal.{new}"] + code[1:]))
                    continue
                params = mm.group(2).split()
                expr = mm.group(3)
                if expr.strip() in ("search rules", "search needs"):
                    continue
                if params:
                    expr = turn.body(expr, params[0], place)
                if params[1:] and params[1:] != ["κs"]:
                    turn.say(f"{name} ({new}): arguments {params}")
                clause_names = (info.get("asked") or {}).get(old)
                if clause_names and len(clause_names) > 1:
                    rec = as_record(expr, clause_names)
                    if rec:
                        expr = rec
                    else:
                        turn.say(f"{new}: no tuple for {clause_names}")
                answers.append("\n".join(comments + [f"pub {new} : goal.{new}"] + ([mm.group(1).rstrip()] if mm.group(1) else []) + [f"{new} c ={expr}"]))
                continue
            if re.search(r"\btie\.", "\n".join(code)):
                turn.say(f"helper {name} names the tie")
            answers.append("\n".join(ls))
        if invs:
            text = "\n\n".join(invs)
            head = top_comment + used_lines([u for u in uses], text) + [f"use Rattle.{crate}.proofs.{module}.Given as goal", ""]
            with open(os.path.join(folder, "Invariants.antt"), "w", encoding="utf-8") as f:
                f.write("\n".join(head) + "\n" + text + "\n")
        if answers:
            text = "\n\n".join(answers)
            head = ([] if invs else top_comment) + used_lines(uses, text) + [f"use Rattle.{crate}.proofs.{module}.Goals as goal", ""]
            with open(os.path.join(folder, "Answers.antt"), "w", encoding="utf-8") as f:
                f.write("\n".join(head) + "\n" + text + "\n")
        os.remove(path)
        for s in turn.said:
            print(s)


if __name__ == "__main__":
    main(sys.argv[1:])
