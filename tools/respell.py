#!/usr/bin/env python3
"""Spells this repository's own definitions and lemmas as the toolchain's guide to names has it, after its port script has run.

usage: python3 tools/respell.py            at the top of the repository
       python3 tools/respell.py --collisions   only says which names would fall together

Functions, fields and constructors are in snake case. In a lemma's name a dash joins two names, and a plain word is added with an
underscore. Names that Rattle makes of the source, in proofs/F/, stay; so do names that a Rust source declares.
"""
import os
import re
import sys

TOKEN = re.compile(r'[^\s(){}.;,@"«»`]+')
DECLARED = re.compile(r"^( *)((?:(?:abbrev|pub|unfoldable) )*)([^\s(){}.;,@\"«»:=]+)((?: \{[^{}\n]*\})*) :(?: |$)")
CAMEL = re.compile(r"[a-z][A-Za-z0-9_'-]*[A-Z]")
# What a lemma's name may be joined of, beside this repository's own definitions: words of the library.
LIBRARY = set("""length take drop append cons nil map flat_map foldl set get_or reverse min max add mul sub div mod pow suc zero and or not
eqb leb ltb code slice_get slice_index filter concat replicate sum head tail last fill""".split())
# Words of this repository's lemmas that are also library words, and mean the English word there.
KEPT = {"open"}


def files(root, folders, ending):
    for crate in sorted(os.listdir(os.path.join(root, "crates"))):
        for part in folders:
            top = os.path.join(root, "crates", crate, part)
            for folder, dirs, names in os.walk(top):
                dirs[:] = sorted(d for d in dirs if d != "out")
                for name in sorted(names):
                    if name.endswith(ending):
                        yield os.path.join(folder, name)


def read(path):
    with open(path, encoding="utf-8") as f:
        return f.read()


def is_of_function(root, path):
    """Whether the file lies in proofs/F/, the folder of one function."""
    parts = os.path.relpath(path, os.path.join(root, "crates")).split(os.sep)
    return parts[1] == "proofs" and len(parts) > 3


def snake(name):
    return re.sub(r"(?<=[a-z])[A-Z]|(?<=[a-z][0-9])[A-Z]", lambda m: "_" + m[0].lower(), name)


def parts_snake(name):
    """Snake case, but a part that begins with a capital is the name of a type or of a module."""
    return "-".join(part if part[:1].isupper() else snake(part) for part in name.split("-"))


def declared(text):
    for line in text.split("\n"):
        m = DECLARED.match(line)
        if m and not m[3].startswith("--"):
            yield m[3], line[m.end():]


def joined(name, names):
    """A dash between two names stays; else it is an underscore."""
    parts = name.split("-")
    out = parts[0]
    for before, part in zip(parts, parts[1:]):
        both = all(p in names or p[:1].isupper() or not re.match(r"\w", p) for p in (before, part)) or (before in KEPT and part[:1].isupper())
        out += ("-" if both else "_") + part
    return out


def record_fields(text):
    """The fields of the records that a text declares."""
    inside = False
    for line in text.split("\n"):
        if re.match(r"(abbrev )?(pub )?record\b", line):
            inside = True
        elif line[:1].strip():
            inside = False
        elif inside:
            m = DECLARED.match(line)
            if m:
                yield m[3]


def names_in(text):
    """The names that a text uses, without its comments and the steps of its paths."""
    code = "\n".join(code_and_comment(line)[0] for line in text.split("\n"))
    code = re.sub(r"^use \S+?\.(\{|[^\s.{]+$|[^\s.{]+ as )", r"\1", code, flags=re.M)
    return set(TOKEN.findall(code))


def imported(text, own):
    """The names that a text imports from a library of the toolchain's."""
    found = set()
    for m in re.finditer(r"^use (\S+?)\.\{([^}]*)\}", text, re.M):
        steps = m[1].split(".")
        if not (steps[0] == "Rattle" and len(steps) > 1 and steps[1] in own):
            found |= {t for part in m[2].split(",") for t in TOKEN.findall(part)}
    return found


def table(root):
    """Old name to new name, of what specs/ and the files of lemmas declare; the definitions' names; the fields of records."""
    definitions, lemmas, fields, tokens, borrowed = set(), set(), set(), set(), set()
    own = set(os.listdir(os.path.join(root, "crates")))
    for path in files(root, ["specs"], ".antt"):
        text = read(path)
        definitions |= {n for n, _ in declared(text)}
        fields |= set(record_fields(text))
        tokens |= names_in(text)
    for path in files(root, ["proofs"], ".antt"):
        text = read(path)
        tokens |= names_in(text)
        borrowed |= imported(text, own)
        if is_of_function(root, path):
            continue
        lemmas |= {n for n, _ in declared(text)}
        fields |= set(record_fields(text))
    names = LIBRARY | {snake(n) for n in definitions if "-" not in n}
    to = {n: parts_snake(n) for n in definitions | lemmas if CAMEL.match(n) and "-" not in n}
    taken = set(to.values())
    for n in sorted(definitions | lemmas):
        if not re.match(r"[A-Za-z]", n) or n in to or n in borrowed:
            continue
        if n in taken and n not in definitions:
            to[n] = n + "_lem"
        elif "-" in n:
            new = joined(parts_snake(n), names)
            if new != n:
                to[n] = new + "_lem" if new in taken or new in tokens else new
    return to, names, fields


def own_table(text, names, shared):
    """The lemmas that a file of proofs/F/ declares for itself; a goal keeps the name that Rattle makes."""
    to = {}
    for n, rest in declared(text):
        if n in shared or not re.match(r"[A-Za-z]", n) or "-" not in n and not CAMEL.match(n):
            continue
        if re.match(r"(tie|goal)\.|.*\bstatement M\b", rest):
            continue
        new = parts_snake(n) if CAMEL.match(n) else n
        new = joined(new, names)
        if new != n:
            to[n] = new
    return to


def code_and_comment(line):
    at = line.find("--")
    while at > 0 and line[at - 1] not in " (":
        at = line.find("--", at + 2)
    return (line, "") if at < 0 else (line[:at], line[at:])


def is_comment(before):
    """Whether what follows this beginning of a line stands in a comment; a comment's prose has words with dashes that are no names."""
    return re.search(r"(^|[ (])--( |$)", before) is not None


def turn(text, to, fields, of_function):
    """In antt's text: whole tokens. Behind a dot, only a name in camel case and a field of a record of our own: another is a step's name."""
    def new(m):
        t = m[0]
        if t not in to:
            return t
        line = m.string.rfind("\n", 0, m.start()) + 1
        if is_comment(m.string[line : m.start()]) and not CAMEL.match(t) and m.string[line : m.start()].count("`") % 2 == 0:
            return t
        if m.start() > 0 and m.string[m.start() - 1] == ".":
            member = m.string[m.end():m.end() + 1] != "."
            if not (CAMEL.match(t) or t in fields or not of_function and member):
                return t
        elif m.string[m.end():m.end() + 2] == ".{":
            return t
        return to[t]
    return TOKEN.sub(new, text)


def turn_rust(text, to):
    """In a source, names stand in clauses, in ghost items and in comments; Rust's own names are never in camel case."""
    camel = {k: v for k, v in to.items() if CAMEL.match(k)}
    return re.sub(r"(?<![\w'-])[a-z][\w'-]*(?![\w'-])", lambda m: camel.get(m[0], m[0]), text)


def turn_page(text, to):
    """In a page: names in code, between back quotes or in fences."""
    out, fenced = [], False
    for line in text.split("\n"):
        if line.lstrip().startswith("```"):
            fenced = not fenced
            out.append(line)
        elif fenced:
            out.append(TOKEN.sub(lambda m: to.get(m[0], m[0]), line))
        else:
            out.append(re.sub(r"`([^`]*)`", lambda m: "`" + TOKEN.sub(lambda t: to.get(t[0], t[0]), m[1]) + "`", line))
    return "\n".join(out)


def collisions(root, to):
    """Names that would fall together: a new name that stands in a file already, as a token of its own, beside the old one."""
    for path in [*files(root, ["specs", "proofs"], ".antt"), *files(root, ["src"], ".rt")]:
        text = read(path)
        tokens = set(re.findall(r"(?<![\w'-])[A-Za-z][\w'-]*", text) if path.endswith(".rt") else TOKEN.findall(text))
        for n in sorted(tokens & set(to)):
            if to[n] in tokens:
                where = [l.strip() for l in text.split("\n") if re.search(rf"(?<![\w'-]){re.escape(to[n])}(?![\w'-])", l)][:1]
                print(f"{os.path.relpath(path, root)}: {n} -> {to[n]}, which stands there: {where[0][:120] if where else ''}")


def main(argv):
    root = os.getcwd()
    to, names, fields = table(root)
    by_new = {}
    for n, new in to.items():
        by_new.setdefault(new, []).append(n)
    for new, olds in sorted(by_new.items()):
        if len(olds) > 1:
            print("two names fall together:", new, "of", ", ".join(sorted(olds)))
    if argv == ["--collisions"]:
        collisions(root, to)
        return 0
    count = 0
    for path in files(root, ["specs", "proofs"], ".antt"):
        text = read(path)
        mine = dict(to)
        if is_of_function(root, path):
            mine.update(own_table(text, names, to))
        new = turn(text, mine, fields, is_of_function(root, path))
        if new != text:
            count += 1
            with open(path, "w", encoding="utf-8") as f:
                f.write(new)
    for path in files(root, ["src"], ".rt"):
        text = read(path)
        new = turn_rust(text, to)
        if new != text:
            count += 1
            with open(path, "w", encoding="utf-8") as f:
                f.write(new)
    pages = ["README.md"] + [os.path.join(d, f) for d in ("docs", "differential") for f in sorted(os.listdir(d)) if f.endswith(".md")]
    for path in pages:
        text = read(path)
        new = turn_page(text, to)
        if new != text:
            count += 1
            with open(path, "w", encoding="utf-8") as f:
                f.write(new)
    print(f"{len(to)} names, {count} files")
    return 0


if __name__ == "__main__":
    raise SystemExit(main(sys.argv[1:]))
