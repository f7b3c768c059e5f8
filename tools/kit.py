"""The kit's program `rt`, run within Python: what tools/gate, tools/prove and tools/try_edits share.

    python3 tools/kit.py WORD..

It runs rt with these words. It is rt as it is, but the sum of a crate's files and of all below it, by which rt knows a library that it proved, is computed
once for each crate, and that a check begins only where there is memory for it beside the others. rt computes that sum anew for each way that leads from
crate to crate, thousands of times for those at the top; and if it is told how many checks to run side by side (RT_JOBS), it counts no memory. In a kit
of another form it runs rt alone.
"""
import functools
import importlib.machinery
import importlib.util
import os
import shutil
import subprocess
import sys

from room import in_room, need

# What comes of a program `rt` that isn't the Python that this knows.
OTHER_FORM = (OSError, AttributeError, ImportError, SyntaxError, ValueError)


def load():
    """The program `rt`, as a module whose sums are computed once, and whose checks share memory. One of OTHER_FORM where it can't be taken so."""
    at = os.path.realpath(shutil.which("rt") or "rt")
    loader = importlib.machinery.SourceFileLoader("rt_program", at)
    made = importlib.util.module_from_spec(importlib.util.spec_from_loader("rt_program", loader))
    loader.exec_module(made)
    made.rtlib.Crate.stamp = functools.cache(made.rtlib.Crate.stamp)
    made.need, made.in_lanes = need, in_room(made.in_lanes)
    return made


def run_alone(words, error):
    """Runs `rt` as it is."""
    print(f"kit: rt is of another form, and run as it is: {error}", flush=True)
    return subprocess.run(["rt", *words], check=False).returncode


def main(words):
    try:
        rt = load()
        run = rt.main
    except OTHER_FORM as error:
        return run_alone(words, error)
    return run(words)


if __name__ == "__main__":
    sys.exit(main(sys.argv[1:]))
