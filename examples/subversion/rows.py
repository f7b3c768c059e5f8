#!/usr/bin/env python3
"""Prints what a working copy has, for comparison with another of the same revision: the rows of its database, by SQLite, and its files.

    rows.py WC

Left out are the time of a file and, where keywords are expanded, its size and its bytes.
"""
import hashlib
import os
import sqlite3
import sys

from nodes import atom, properties
from trees import path_word, word

TABLES = ("repository", "wcroot", "actual_node", "lock", "work_queue", "wc_lock", "externals", "sqlite_sequence")
COLUMNS = "wc_id, local_relpath, op_depth, parent_relpath, repos_id, repos_path, revision, presence, moved_here, moved_to, kind, properties, depth, " \
    "checksum, symlink_target, translated_size, last_mod_time, file_external, inherited_props, " \
    "changed_revision, changed_date, changed_author"


def inherited(text):
    """Paths with the properties there, of a list of both in turn."""
    if text is None:
        return None
    found, at = [], 1
    while text[at:at + 1] != b")":
        if text[at:at + 1] == b" ":
            at += 1
            continue
        path, at = atom(text, at)
        start = text.index(b"(", at)
        at = start + 1
        while text[at:at + 1] != b")":
            at = at + 1 if text[at:at + 1] == b" " else atom(text, at)[1]
        at += 1
        found.append((path, sorted(properties(text[start:at]).items())))
    return found


def nodes(database):
    for row in database.execute(f"select {COLUMNS} from nodes order by local_relpath, op_depth"):
        row = list(row)
        props = properties(row[11])
        row[11] = sorted(props.items())
        if b"svn:keywords" in props or b"svn:special" in props:
            row[15] = row[16] = None
        row[16] = row[16] is not None
        row[18] = inherited(row[18])
        print("node", row)


def files(folder):
    expanded = set()
    database = sqlite3.connect(f"file:{folder}/.svn/wc.db?mode=ro", uri=True)
    database.text_factory = bytes
    for path, props in database.execute("select local_relpath, properties from nodes where properties is not null"):
        if b"svn:keywords" in properties(props):
            expanded.add(path)
    top = os.fsencode(folder)
    for above, folders, names in os.walk(top):
        folders[:] = sorted(it for it in folders if os.path.join(above, it) != os.path.join(top, b".svn"))
        for name in sorted(names + folders):
            place = os.path.join(above, name)
            path = os.path.relpath(place, top)
            mode = oct(os.lstat(place).st_mode)
            if os.path.islink(place):
                print("link", path_word(path), word(os.readlink(place)))
            elif os.path.isdir(place):
                print("folder", path_word(path), mode)
            else:
                with open(place, "rb") as file:
                    print("file", path_word(path), mode, "" if path in expanded else hashlib.sha1(file.read()).hexdigest())


def main(words):
    if len(words) != 1:
        sys.exit(__doc__.strip())
    database = sqlite3.connect(f"file:{words[0]}/.svn/wc.db?mode=ro", uri=True)
    database.text_factory = bytes
    print(database.execute("pragma integrity_check").fetchall(), database.execute("pragma foreign_key_check").fetchall())
    nodes(database)
    for row in database.execute("select checksum, compression, size, refcount, md5_checksum from pristine order by checksum"):
        print("pristine", row)
    for table in TABLES:
        for row in sorted(map(repr, database.execute(f"select * from {table}"))):
            if "WORK_QUEUE" not in row:
                print(table, row)
    files(words[0])


if __name__ == "__main__":
    main(sys.argv[1:])
