#!/usr/bin/env python3
"""Whether two copies differ in nothing but last changes that Subversion's update leaves as they were, where the repository has others, and in the size and
time of a file with a local change, which it forgets where a revision touched the file: what updates.sh and checkouts.sh call.

    stale_changes.py REPO THEIRS OURS    the lines of rows.py; status 0 if each node of OURS has the last change that the repository names, or an older one
                                         where a revision touched the node and changed nothing of it
"""
import ast
import os
import subprocess
import sys
import urllib.parse


def lines(file):
    with open(file, encoding="utf-8", errors="surrogateescape") as text:
        return text.read().splitlines()


def is_last_change(repo, node):
    """Whether the last three columns of a row are what the repository says, or what it says but for a change of nothing."""
    path = node[5].decode("utf-8", "surrogateescape")
    url = f"file://{os.path.abspath(repo)}/{urllib.parse.quote(node[5])}@{node[6]}"
    run = subprocess.run(("svn", "info", "--show-item", "last-changed-revision", url), stdout=subprocess.PIPE)
    if run.returncode != 0:
        return False
    last = int(run.stdout)
    if last == node[19]:
        return True
    changed = subprocess.run(("svnlook", "changed", "-r", str(last), repo), stdout=subprocess.PIPE, check=True).stdout.decode("utf-8", "surrogateescape")
    return node[19] < last and path not in {it[4:].rstrip("/") for it in changed.split("\n")}


def is_same(was, is_now):
    """Whether two rows are the same but for the last change, and for a size and time that Subversion's has no longer."""
    recorded = slice(15, 17)
    if was[recorded] == [None, False]:
        was = was[:15] + is_now[recorded] + was[17:]
    return was[:-3] == is_now[:-3]


def main(words):
    if len(words) != 3:
        sys.exit(__doc__.strip())
    theirs, ours = lines(words[1]), lines(words[2])
    if len(theirs) != len(ours):
        sys.exit(1)
    for one, other in zip(theirs, ours):
        if one == other:
            continue
        if not one.startswith("node ") or not other.startswith("node "):
            sys.exit(1)
        was, is_now = ast.literal_eval(one[5:]), ast.literal_eval(other[5:])
        if not is_same(was, is_now) or not is_last_change(words[0], is_now):
            sys.exit(1)


if __name__ == "__main__":
    main(sys.argv[1:])
