#!/usr/bin/python3
"""Goes on with a repository by random revisions, as random_history.py makes them: what mends.sh makes false copies with.

    false_history.py SEED REVISIONS REPO

It needs Debian's package `python3-subversion`.
"""
import random
import sys

import svn.repos

from random_history import Maker


def main(words):
    if len(words) != 3:
        sys.exit(__doc__.strip())
    maker = Maker.__new__(Maker)
    maker.rng, maker.repos = random.Random(int(words[0])), svn.repos.open(words[2])
    maker.fs = svn.repos.fs(maker.repos)
    for _ in range(int(words[1])):
        maker.commit()


if __name__ == "__main__":
    main(sys.argv[1:])
