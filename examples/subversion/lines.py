#!/usr/bin/env python3
"""Prints which nodes of a history Subversion takes for one and the same, through copies and changes.

    lines.py REPOSITORY LAST [--without PATH]

REPOSITORY is the folder of a repository. For each node of each revision from 0 to LAST there is a line `REV PATH NUMBER`, the path as a word of a script.
Nodes with the same number have the same node id (`svnlook tree --show-ids`); numbers are given in the order in which ids come, from 0. With --without
nothing is printed of what is at that path and below.
"""
import re
import subprocess
import sys

from trees import path_word


def main(words):
    without = None
    if len(words) == 4 and words[2] == "--without":
        without = words[3].encode()
        del words[2:]
    if len(words) != 2:
        sys.exit(__doc__.strip())
    numbers = {}
    for rev in range(int(words[1]) + 1):
        listed = subprocess.run(["svnlook", "tree", "--full-paths", "--show-ids", "-r", str(rev), words[0]], stdout=subprocess.PIPE, check=True).stdout
        nodes = [re.fullmatch(rb"(.*?)/? <([^.>]*)[^>]*>", line) for line in listed.splitlines()]
        for path, node in sorted(((it[1], it[2]) for it in nodes), key=lambda it: it[0].split(b"/") if it[0] else []):
            if without is None or path != without and not path.startswith(without + b"/"):
                print(rev, path_word(path), numbers.setdefault(node, len(numbers)))


if __name__ == "__main__":
    main(sys.argv[1:])
