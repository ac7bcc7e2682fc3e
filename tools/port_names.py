#!/usr/bin/env python3
"""Brings the names of this repository's definitions and lemmas to snake case.

usage: tools/port_names.py [FOLDER]     after port.py, once, at the top of the checkout

A camel-case word gets underscores, and so does a word with dashes. A dash stays beside a part that begins with a capital, as in
All-append, since a fact keeps its capital. A lemma that would get its definition's name gets _lem. Names of Rust code, of the library
and of what Rattle generates stay. It writes docs/names.tsv, the old and the new names.
"""
import collections
import glob
import os
import re
import sys

TOKEN = r"[^\s(){}\[\];,.\"λ⌜⌝]+"
DECL = re.compile(r"^([ ]*)((?:pub |abbrev |unfoldable |opaque |local )*)(record |data )?(?:pub )?([^\s:(){}.|⊢]+)((?: [^:\n]*)?) :(?= |\n)", re.M)
OPERATORS = set("_◌")


def snake(name):
    """The new name, or the same."""
    name = name.replace("getD", "get_or")
    parts = name.split("-")
    out = []
    for p in parts:
        if re.match(r"[a-z]", p):
            p = re.sub(r"(?<=[a-z0-9])([A-Z]+)", lambda m: "_" + m.group(1).lower(), p)
        out.append(p)
    text = out[0]
    for a, b in zip(out, out[1:]):
        capital = re.match(r"[A-Z]", a) or re.match(r"[A-Z]", b)
        text += ("-" if capital else "_") + b
    return text


def spec_files(top):
    for c in sorted(os.listdir(os.path.join(top, "crates"))):
        for part in ("specs", "proofs"):
            for p in sorted(glob.glob(os.path.join(top, "crates", c, part, "**", "*.antt"), recursive=True)):
                yield p


def source_files(top):
    return sorted(glob.glob(os.path.join(top, "crates", "*", "src", "**", "*.rt"), recursive=True))


def head(text, at):
    """The line at the margin above a place."""
    lines = re.findall(r"(?m)^[^\s-][^\n]*", text[:at])
    return lines[-1] if lines else ""


def own_names(top):
    """Names that the repository declares, with the files."""
    names = collections.defaultdict(set)
    fields = set()
    for p in spec_files(top):
        proof = p.endswith("/Proof.antt")
        with open(p, encoding="utf-8") as f:
            text = f.read()
        for m in DECL.finditer(text):
            name = m.group(4)
            if name.startswith("◌") or name in ("module", "where", "let"):
                continue
            rest = text[m.end():m.end() + 40]
            if proof and (rest.startswith(" tie.") or name.endswith("-spec") or name.endswith("_spec")):
                continue
            if m.group(1) and re.match(r"(pub )?(abbrev )?(pub )?(record|data) ", head(text, m.start())):
                fields.add(name)
            else:
                names[name].add(os.path.relpath(p, top))
    return names, fields


def library_words(top, crates):
    """The library's names that some file takes in."""
    words = set()
    for p in list(spec_files(top)) + source_files(top):
        with open(p, encoding="utf-8") as f:
            found = imports(f.read())
        words |= {local for local, (module, _) in found.items() if not is_own(module, crates)}
    return words


def plan(names, fields, taken):
    """Old to new, with _lem where a lemma falls together with a definition or a word of the library. A field has its record for a
    namespace."""
    new = {n: snake(n) for n in fields if snake(n) != n}
    by = collections.defaultdict(list)
    for n in names:
        if re.match(r"[A-Z]", n) and "-" not in n:
            continue
        by[snake(n)].append(n)
    for s, olds in by.items():
        olds.sort(key=lambda n: (n != s and "-" in n, n))
        for i, n in enumerate(olds):
            to = s + "_lem" * (i + (s in taken and n not in taken))
            if to != n:
                new[n] = to
    return new


def imports(text):
    out = {}
    for m in re.finditer(r"^\s*(?:pub )?(?:ghost )?use ([^\s{]+?)\.\{([^}]*)\}", text, re.M):
        for it in m.group(2).split(","):
            words = it.strip().split(" as ")
            if words[0]:
                out[words[-1].strip()] = (m.group(1), words[0].strip())
                out.setdefault(words[0].strip(), (m.group(1), words[0].strip()))
    return out


def is_own(module, crates):
    m = re.match(r"Rattle\.([a-z_0-9]+)\.", module)
    return bool(m) and m.group(1) in crates


def rename(text, new, skip, fields=()):
    """The text with the new names. A path of modules stays, and behind a point only fields are turned."""
    def turn(m):
        w = m.group(0)
        if m.start() and m.string[m.start() - 1] == ".":
            return snake(w) if w in fields else w
        return new[w] if w in new and w not in skip else w
    out = []
    for line in re.split(r"(?m)^(\s*(?:pub )?(?:ghost )?(?:use [^\s{]+|mod [^\n]*))", text):
        if re.match(r"\s*(pub )?(ghost )?(use|mod) ", line):
            out.append(line)
        else:
            out.append(re.sub(TOKEN, turn, line))
    return "".join(out)


def clauses(text):
    """The stretches of a source file in which definitions are named: ghost use lines and the clauses."""
    out = []
    for m in re.finditer(r"^\s*ghost use [^;]*;", text, re.M):
        out.append((m.start(), m.end()))
    for m in re.finditer(r"\b(requires|ensures|ghost|decreases|invariant)\b[^{;\n]*\{", text):
        depth, i = 1, m.end()
        while depth and i < len(text):
            depth += {"{": 1, "}": -1}.get(text[i], 0)
            i += 1
        out.append((m.start(), i))
    return sorted(out)


def main(top):
    crates = set(os.listdir(os.path.join(top, "crates")))
    names, fields = own_names(top)
    new = plan(names, fields, library_words(top, crates))
    for p in spec_files(top):
        with open(p, encoding="utf-8") as f:
            text = f.read()
        skip = {local for local, (module, _) in imports(text).items() if not is_own(module, crates)}
        alias = {a: snake(a) for a, (module, n) in imports(text).items() if is_own(module, crates) and a != n and a not in new and snake(a) != a}
        turned = rename(text, {**alias, **new}, skip, fields)
        if turned != text:
            with open(p, "w", encoding="utf-8") as f:
                f.write(turned)
    for p in source_files(top):
        with open(p, encoding="utf-8") as f:
            text = f.read()
        found = imports(text)
        skip = {local for local, (module, _) in found.items() if not is_own(module, crates)}
        alias = {a: snake(a) for a, (module, n) in found.items() if is_own(module, crates) and a != n and a not in new and snake(a) != a}
        rust = set(re.findall(r"\bfn ([a-z_0-9]+)", text)) | set(re.findall(r"^\s*(?:pub )?use [^;{]*::([a-z_0-9]+);", text, re.M))
        for m in re.finditer(r"^\s*(?:pub )?use [^;{]*::\{([^}]*)\};", text, re.M):
            rust |= {x.strip() for x in m.group(1).split(",")}
        both = {**alias, **new}
        out, at = [], 0
        for a, b in clauses(text):
            if a < at:
                continue
            out.append(text[at:a])
            part = text[a:b]
            falls = {o: n for o, n in both.items() if n in rust and o in found and is_own(found[o][0], crates)}
            if part.lstrip().startswith("ghost use"):
                def item(m, falls=falls):
                    w = m.group(0)
                    if w in falls and found[w][1] == w:
                        return f"{new[w]} as {falls[w]}_spec"
                    return falls[w] + "_spec" if w in falls else (both[w] if w in both and w not in skip else w)
                part = re.sub(TOKEN, item, part)
            else:
                part = rename(part, {**both, **{o: n + "_spec" for o, n in falls.items()}}, skip, fields)
            out.append(part)
            at = b
        out.append(text[at:])
        turned = "".join(out)
        if turned != text:
            with open(p, "w", encoding="utf-8") as f:
                f.write(turned)
    os.makedirs(os.path.join(top, "docs"), exist_ok=True)
    with open(os.path.join(top, "docs", "names.tsv"), "w", encoding="utf-8") as f:
        for o in sorted(new):
            f.write(f"{o}\t{new[o]}\n")
    print(len(new), "names")


if __name__ == "__main__":
    main(sys.argv[1] if len(sys.argv) > 1 else ".")
