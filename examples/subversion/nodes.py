#!/usr/bin/env python3
"""Prints the base nodes of a working copy as its database has them, by SQLite, in the lines of `svnaudit nodes`.

    nodes.py WC
"""
import sqlite3
import sys

from trees import path_word, word

SPACES = b"\t\n\f\r "


def atom(text, at):
    """The atom of a list that begins at a place, and where it ends."""
    if text[at:at + 1].isalpha():
        end = at
        while end < len(text) and text[end] not in SPACES + b"()[]":
            end += 1
        return text[at:end], end
    space = text.index(b" ", at)
    end = space + 1 + int(text[at:space])
    return text[space + 1:end], end


def properties(text):
    """name -> value, of a list of both in turn."""
    if not text:
        return {}
    atoms, at = [], 1
    while text[at:at + 1] != b")":
        if text[at] in SPACES:
            at += 1
        else:
            found, at = atom(text, at)
            atoms.append(found)
    return dict(zip(atoms[::2], atoms[1::2]))


def main(words):
    if len(words) != 1:
        sys.exit(__doc__.strip())
    database = sqlite3.connect(f"file:{words[0]}/.svn/wc.db?mode=ro", uri=True)
    database.text_factory = bytes
    rows = database.execute(
        "select local_relpath, presence, kind, revision, repos_path, checksum, properties from nodes where op_depth = 0 and file_external is null"
    ).fetchall()
    for path, presence, kind, rev, repos_path, checksum, props in sorted(rows, key=lambda row: row[0].split(b"/") if row[0] else []):
        name = path_word(path)
        if presence == b"not-present":
            print(name, "not-present")
            continue
        ending = " incomplete" if presence == b"incomplete" else f" {checksum.decode()}" if kind == b"file" else ""
        print(f"{name} {kind.decode()} {rev} {path_word(repos_path)}{ending}")
        for prop, value in sorted(properties(props).items()):
            print(name, "prop", word(prop), word(value))


if __name__ == "__main__":
    main(sys.argv[1:])
