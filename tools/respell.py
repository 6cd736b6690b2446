#!/usr/bin/env python3
"""Respells the definitions and lemmas of this repository: words in snake case, types and modules in camel case.

usage: tools/respell.py          at the top, once, right after port.py

    configFits, config-fits-each  ->  config_fits, config_fits_each

It goes by file: a name is respelled where the file declares it or imports it from a module of this repository, in specs/, in proofs/, in the
clauses and ghost imports of src/, and in the lines of must-fail edits. A name of the library keeps its spelling, and so does a name of src/.
A dash beside a type stays, as in All-append. A lemma that would have a definition's name gets _lem. It says what falls together, and stops there.
"""

import os
import re
import sys

WORD = re.compile(r"--[^\n]*|//[^\n]*|\"(?:[^\"\\\n]|\\.)*\"|«[^»\n]*»|[^\s(){}.;,@\"«»\[\]\\]+")
DECLARED = re.compile(r"^( *)(?:unfoldable |abbrev |opaque )?(?:pub )?(?:data |record )?([^\s:(){}.;,@\"]+) (?::|\()", re.M)
USE = re.compile(r"^(?:ghost )?(?:pub )?use ([^\s{;]+)(?:\.\{([^}]*)\})?(?: as (\S+?))?;?$", re.M)
CAMEL = re.compile(r"(?<=[a-z0-9])(?=[A-Z])")


def spelled(name):
    """The name in snake case; what begins with a capital or a sign is left, with the dash beside it."""
    if name[0].isupper() or not re.search(r"[-A-Z]", name):
        return name
    parts = name.replace("\u2032", "'").split("-")
    out = parts[0]
    for before, part in zip(parts, parts[1:]):
        plain = all(re.match(r"[a-z0-9_'\u2080-\u2089]", it) for it in (before[-1:], part[:1]))
        out += ("_" if plain else "-") + part
    return "-".join(it if it[:1].isupper() else CAMEL.sub("_", it).lower() for it in out.split("-"))


def read(path):
    with open(path, encoding="utf-8") as f:
        return f.read()


def write(path, text):
    with open(path, "w", encoding="utf-8") as f:
        f.write(text)


def walk(top, ending):
    for folder, dirs, files in os.walk(top):
        dirs[:] = sorted(it for it in dirs if it != "out")
        for it in sorted(files):
            if it.endswith(ending):
                yield os.path.join(folder, it)


def module_of(path):
    """The module of an antt file: crates/base/specs/Below.antt is Rattle.base.specs.Below."""
    return "Rattle." + path[len("crates/") : -len(".antt")].replace("/", ".")


def is_answer(path):
    return "/proofs/" in path and os.path.basename(path) in ("Proof.antt", "Answers.antt", "Invariants.antt")


def declared(text):
    """The names that a file declares, each with whether it stands at the margin."""
    return {m.group(2): not m.group(1) for m in DECLARED.finditer(text)}


def table():
    """By module the names that it declares, each with its new spelling."""
    of, definitions = {}, {}
    for crate in sorted(os.listdir("crates")):
        for path in walk(f"crates/{crate}/specs", ".antt"):
            for name, margin in declared(read(path)).items():
                if margin:
                    definitions.setdefault(spelled(name), set()).add(name)
    for crate in sorted(os.listdir("crates")):
        for kind in ("specs", "proofs"):
            for path in walk(f"crates/{crate}/{kind}", ".antt"):
                if is_answer(path):
                    continue
                names = {}
                for name in declared(read(path)):
                    new = spelled(name)
                    if kind == "proofs" and definitions.get(new, {name}) - {name} == definitions.get(new):
                        new += "_lem"
                    names[name] = new
                for name in names:
                    if "-" in name and list(names.values()).count(names[name]) > 1:
                        names[name] += "_lem"
                of[module_of(path)] = names
    return of


def imports(text, of):
    """The names that a file imports: those of this repository with their new spelling, and the others."""
    own, others = {}, set()
    for m in USE.finditer(text):
        path, items, alias = m.groups()
        home = next((it for it in of if path == it or path.startswith(it + ".")), None)
        for item in (items or "").split(","):
            words = item.split()
            if not words:
                continue
            name, shown = words[0], words[-1]
            if home and name in of[home]:
                own[name] = of[home][name]
            elif len(words) == 1:
                others.add(shown)
    return own, others


def respelling(path, text, of):
    """Of a file the old spelling to the new."""
    own, others = imports(text, of)
    if path.endswith(".antt"):
        here = of.get(module_of(path))
        if here is None:
            goals = set(re.findall(r"(?m)^(?:abbrev )?(?:pub )?(\S+) : tie\.", text))
            here = {it: spelled(it) for it in declared(text) if it not in goals and "_spec" not in it and "-spec" not in it}
        own = {**own, **here}
    out = {old: new for old, new in own.items() if old != new and old not in others}
    told = [(old, new) for old, new in out.items() if new in others or new in {n for o, n in own.items() if o != old}]
    return out, told


def turned(text, names, fields, clauses_only):
    """The text with the names respelled; in a source only in clauses, ghost imports and comments."""

    def one(m):
        word = m.group(0)
        if word.startswith("--") or word.startswith("//"):
            return re.sub(r"[a-z][a-z0-9]*(?:[A-Z][a-z0-9]*)+", lambda n: names.get(n.group(0), n.group(0)), word)
        if word.startswith('"'):
            return word
        if m.start() and text[m.start() - 1] == "." and text[m.start() - 2 : m.start() - 1] not in (" ", "{"):
            before = re.search(r"[^\s(){};,@\"]*$", text[: m.start() - 1]).group(0)
            if not before.startswith("Rattle") and word not in fields:
                return word
        return names.get(word, word)

    if not clauses_only:
        return WORD.sub(one, text)
    return re.sub(r"(?ms)^ghost use [^;]*;|^ *(?:requires|ensures)\b[^{\n]*\{.*?\}$|//[^\n]*", lambda c: turned(c.group(0), names, fields, False), text)


def fields_of(of):
    """The fields of records whose spelling changes."""
    out = set()
    for crate in sorted(os.listdir("crates")):
        for path in walk(f"crates/{crate}/specs", ".antt"):
            for record in re.finditer(r"(?ms)^(?:pub )?record .*?(?=^\S|\Z)", read(path)):
                out |= {name for name, margin in declared(record.group(0)).items() if not margin}
    return {it for it in out if spelled(it) != it}


def edit_lines(path, maps, fields):
    """An edit's lines: each has the spelling of the file that it is of."""
    out, of = [], {}
    for line in read(path).split("\n"):
        if line.startswith("file: "):
            of = maps.get(os.path.join(os.path.dirname(os.path.dirname(path)), line[len("file: ") :].strip()), {})
        key = line.split(":")[0]
        if key in ("old", "new") and of:
            line = key + ":" + turned(line[len(key) + 1 :], of, fields, False)
        out.append(line)
    return "\n".join(out)


def main():
    if not os.path.isdir("crates"):
        print("respell: run it at the top of the repository", file=sys.stderr)
        return 2
    of, told, maps, everything = table(), 0, {}, {}
    fields = fields_of(of)
    paths = [p for c in sorted(os.listdir("crates")) for ending in (".antt", ".rt") for p in walk(f"crates/{c}", ending)]
    for path in paths:
        text = read(path)
        maps[path], both = respelling(path, text, of)
        maps[path] = {**{it: spelled(it) for it in fields}, **maps[path]}
        everything.update({o: n for o, n in maps[path].items() if not is_answer(path)})
        for old, new in both:
            told += 1
            print(f"{path}: {old} would be {new}, which stands there already")
        tokens = {m.group(0) for m in WORD.finditer(text)}
        known = set(maps[path].values())
        for new in sorted(known & tokens):
            print(f"look: {path}: {new} is a word there before")
    if told:
        print(f"respell: {told} names fall together; nothing was written")
        return 1
    for path in paths:
        write(path, turned(read(path), maps[path], fields, path.endswith(".rt")))
    edits = [p for c in sorted(os.listdir("crates")) for p in walk(f"crates/{c}/must-fail", ".edit")]
    for path in edits:
        write(path, edit_lines(path, maps, fields))
    if len(sys.argv) > 1:
        write(sys.argv[1], "".join(f"{o}\t{n}\n" for o, n in sorted(everything.items())))
    print(f"respell: {len(everything)} names in {len(paths)} files and {len(edits)} edits")
    return 0


if __name__ == "__main__":
    raise SystemExit(main())
