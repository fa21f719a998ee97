#!/usr/bin/env python3
"""Brings the repository's own definitions and lemmas to snake case, after port.py.

usage: tools/spelling.py [FOLDER]     at the top of the repository, or of FOLDER, which has the same crates/

A name is the repository's own if a .antt file of crates/ declares it: a definition, a lemma, a constructor, a field, or a local one below
`where`. An inner capital becomes an underscore and the small letter; types begin with a capital and stay. A dash becomes an underscore in what
specs/ declares and in fields and constructors; a lemma keeps it, where it joins names. A name that a file takes from the library by a `use`
line stays in that file. In `proofs/F/Proof.antt` names that Rattle makes stay too: those after `tie.` and the fields of a context. In comments
a name is respelled where it stands in backticks, or has an inner capital.
`--collisions` only prints the files where a new name meets one that stood there before.
"""
import os
import re
import sys

WORD = r"[\w'′₀-₉-]+"
TOKEN = re.compile(r"(?<![\w'′-])(" + WORD + r")")
SIGNATURE = re.compile(r"^\s*(?:abbrev |unfoldable |pub )*(?!use\b|mod\b|record\b|data\b|where\b|module\b)(" + WORD + r") :(?!\S)")
USE = re.compile(r"^\s*(?:pub )?(?:ghost )?use ([^;{\n]+?)\.?\{([^}]*)\}", re.M | re.S)


def own(path):
    return path.startswith("Rattle.") and not re.match(r"Rattle\.(std|core|io|libc|std_\w+)\b", path)


STATED = set()  # names whose dashes become underscores
# a definition has the name that these fields would get: they keep their dash
KEPT = {"in-clearing", "not-reserved", "same-link"}
# lemmas in port.py's spelling, which their function now has too
LEMMAS = {"is_free", "some_left", "wrong_size"}


def snake(name):
    if name in LEMMAS:
        return name + "_lem"
    if name in STATED and name not in KEPT:
        name = name.replace("-", "_")
    return re.sub(r"(?<=[a-z0-9'])([A-Z])", lambda m: "_" + m.group(1).lower(), name)


def respellable(name):
    """A word, not a type, that snake case changes."""
    return not name[0].isupper() and not name[0].isdigit() and name[0] not in "-_'" and snake(name) != name


def files(top):
    for folder, dirs, names in os.walk(os.path.join(top, "crates")):
        dirs[:] = sorted(d for d in dirs if d != "out")
        for n in sorted(names):
            if n.endswith((".antt", ".rt")):
                yield os.path.join(folder, n)


def read(path):
    with open(path, encoding="utf-8") as f:
        return f.read()


def strip_comment(line, mark):
    i = line.find(mark)
    while i > 0 and not line[i - 1].isspace():
        i = line.find(mark, i + 1)
    return (line, "") if i < 0 else (line[:i], line[i:])


def declared(top):
    """The names that the repository's .antt files declare, but those of proofs by hand."""
    names = set()
    for path in files(top):
        if not path.endswith(".antt") or os.path.basename(path) == "Proof.antt":
            continue
        block = ""  # the record or data that the line stands in
        for line in read(path).split("\n"):
            line, _ = strip_comment(line, "--")
            if line and not line[0].isspace():
                block = line if re.match(r"(pub )?(record|data)\b", line) else ""
            for name in re.findall(r"◌? as (" + WORD + r")", line) if line.startswith("use ") and own(line[4:]) else []:
                names.add(name)
            several = re.match(r"^\s+((?:" + WORD + r" )+)" + WORD + r" :(?!\S)", line) if block.lstrip("pub ").startswith("data") else None
            m = SIGNATURE.match(line) or re.match(r"^\s*\| (" + WORD + r")", line)
            found = several.group(0).split()[:-1] if several else [m.group(1)] if m else []
            for name in found:
                if "/specs/" in path or block:
                    STATED.add(name)
                names.add(name)
    return {n for n in names if respellable(n)}


def imported(text):
    """What a file takes from the library."""
    names = set()
    for path, items in USE.findall(text):
        if not own(path):
            for item in re.split(r"[,\s]+", items):
                names.add(item)
    return names


def turn_code(code, names, generated):
    def one(m):
        word = m.group(1)
        if word not in names:
            return word
        before = code[:m.start()]
        if generated and re.search(r"[\w)'⟧]\.$", before):
            # after a dot in a proof by hand: a field of the repository's own, unless Rattle makes one of that name
            if before.endswith("tie.") or word in generated:
                return word
        return snake(word)
    return TOKEN.sub(one, code)


def turn_comment(text, names):
    def tick(m):
        return "`" + TOKEN.sub(lambda n: snake(n.group(1)) if n.group(1) in names else n.group(1), m.group(1)) + "`"
    text = re.sub(r"`([^`\n]*)`", tick, text)
    return TOKEN.sub(lambda n: snake(n.group(1)) if n.group(1) in names and "-" not in n.group(1) else n.group(1), text)


def turn(path, text, names, generated):
    rt = path.endswith(".rt")
    by_hand = os.path.basename(path) == "Proof.antt"
    library = imported(text)
    mine = {n for n in names if n not in library}
    out = []
    ghost = 0  # the depth of braces inside a clause or a `ghost use` of a .rt file
    for line in text.split("\n"):
        code, comment = strip_comment(line, "//" if rt else "--")
        if rt:
            done = ""
            # only ghost text is turned: `ghost use` lines and the braces of clauses
            if ghost == 0 and re.match(r"\s*(?:pub )?ghost use ", code):
                done = turn_code(code, mine, None)
                ghost = code.count("{") - code.count("}")
            elif ghost > 0:
                done = turn_code(code, mine, None)
                ghost += code.count("{") - code.count("}")
            elif re.match(r"\s*(requires|ensures|ghost)\b", code):
                done = turn_code(code, mine, None)
                ghost = code.count("{") - code.count("}")
            else:
                done = code
            out.append(done + turn_comment(comment, names))
        else:
            out.append(turn_code(code, mine, generated if by_hand else None) + turn_comment(comment, names))
    return "\n".join(out)


# fields of a context that Rattle makes, which a name of the repository's may equal
GENERATED = {"same-length", "slice-known", "up-to"}


def pages(top):
    for folder, dirs, names in os.walk(top):
        dirs[:] = sorted(d for d in dirs if d not in ("out", "target", ".git", "crates"))
        for n in sorted(names):
            if n.endswith(".md") and n not in ("PORT.md", "PORT-OTHER.md", "DESIGN-PASS.md"):
                yield os.path.join(folder, n)


def main():
    args = [a for a in sys.argv[1:] if not a.startswith("--")]
    top = args[0] if args else "."
    names = declared(top)
    by_new = {}
    for n in sorted(names):
        by_new.setdefault(snake(n), []).append(n)
    for new, olds in by_new.items():
        if len(olds) > 1:
            print("fall together:", new, olds)
    if "--collisions" in sys.argv:
        for path in files(top):
            text = read(path)
            code = "\n".join(strip_comment(l, "//" if path.endswith(".rt") else "--")[0] for l in text.split("\n"))
            words = set(TOKEN.findall(code))
            for w in words:
                if w in names and snake(w) in words:
                    print("meets:", path, w, snake(w))
        return
    for path in files(top):
        text = read(path)
        new = turn(path, text, names, GENERATED)
        if new != text:
            with open(path, "w", encoding="utf-8") as f:
                f.write(new)
    print(len(names), "names")


main()
