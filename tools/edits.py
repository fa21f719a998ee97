#!/usr/bin/env python3
"""Checks that each wrong program, crates/*/must-fail/*.edit and crates/*/tried/*.edit, still fits the text that it changes.

usage: tools/edits.py [FOLDER]     at the top of the repository, or of FOLDER, which has the same crates/

An edit names a file below its crate by a line `file: PATH`, and then changes it by pairs of lines, `old: TEXT` and `new: TEXT`. An edit fits
if each file is there, each old text stands exactly once in it after the pairs before have been carried out, and something changes. No other
line is read, so each must be empty or begin with `#`. Each edit that does not fit is named, with the reason. The last line says how many fit
and how many do not; the exit status is 1 if one does not. Whether the prover refuses an edit is another matter: `rt must-fail` says that.
"""
import glob
import os
import sys


class Unfit(Exception):
    pass


def read(path):
    with open(path, encoding="utf-8") as f:
        return f.read()


def carry_out(edit, crate):
    """The texts that an edit changes, before and after, by their paths; or Unfit."""
    path, old, was, texts = None, None, {}, {}
    for number, line in enumerate(read(edit).split("\n"), 1):
        if old is not None and not line.startswith("new:"):
            raise Unfit(f"line {number}: an old text has its new text in the next line")
        if line.startswith("file: "):
            path = line[len("file: "):]
            if os.path.normpath(path) != path or not path.startswith(("src/", "specs/", "proofs/")):
                raise Unfit(f"line {number}: {path} is no file below src/, specs/ or proofs/")
            if not os.path.isfile(os.path.join(crate, path)):
                raise Unfit(f"line {number}: there is no file {path}")
            if path not in texts:
                was[path] = texts[path] = read(os.path.join(crate, path))
        elif line.startswith("old: ") and line != "old: ":
            if path is None:
                raise Unfit(f"line {number}: no file is named before it")
            old = line[len("old: "):]
        elif line.startswith("new:"):
            if old is None:
                raise Unfit(f"line {number}: a new text without an old one")
            count = texts[path].count(old)
            if count != 1:
                raise Unfit(f"line {number - 1}: stands {count} times in {path}: {old.strip()}")
            texts[path] = texts[path].replace(old, line[len("new:"):].removeprefix(" "))
            old = None
        elif line.strip() and not line.startswith("#"):
            raise Unfit(f"line {number}: not read, since it begins with none of `file: `, `old: `, `new:`, `#`")
    if old is not None:
        raise Unfit("the last old text has no new text")
    if texts == was:
        raise Unfit("it changes nothing")
    return was, texts


def main():
    top = sys.argv[1] if len(sys.argv) > 1 else "."
    fit = unfit = 0
    for folder in ("must-fail", "tried"):
        for edit in sorted(glob.glob(os.path.join(top, "crates", "*", folder, "*.edit"))):
            try:
                carry_out(edit, os.path.dirname(os.path.dirname(edit)))
                fit += 1
            except (Unfit, OSError, UnicodeDecodeError) as why:
                print(f"{os.path.relpath(edit, top)}: {why}")
                unfit += 1
    print(f"{fit} fit, {unfit} do not")
    return 1 if unfit or not fit else 0


if __name__ == "__main__":
    raise SystemExit(main())
