#!/usr/bin/env python3
"""Runs each row of test_sweep with each of its allocations refused, and says what was seen.

usage: sweep/run.py PROGRAM [ROW..]
       sweep/run.py --svnup PROGRAM
       sweep/run.py --svnread PROGRAM

PROGRAM is the built program, crates/test_sweep/out/test_sweep (`rt run` in crates/test_sweep builds it). For each row and way, for N = 1, 2, ..
until a run asks for fewer, the N-th allocation is refused, and the row must hold all the same; then all from the N-th on are refused,
and the program must end, and report that it is out of memory if the row isn't done. refuse.c refuses; the system's C compiler makes
a library of it. A run has a minute.

The row in-step says how its update ended, whose driver is never more than two calls ahead of the copy. Where the copy refuses a call for
memory, the driver must learn that in time, unless it has made all its calls; both must come.

With --svnup it is the program crates/svnup/out/svnup, and what is swept are its words, the reading of a short script and its printing: it
prints what it does with ample memory, or that it is out of memory, with status 1, or the command that needed memory is refused.

With --svnread it is the program crates/svnread/out/svnread, and what is swept are the recorded sessions of test_recorded: what it writes is what it does
with ample memory, or a front of that, and it says that it is out of memory, with status 1, or 2 where nothing is served.
"""
import os, re, subprocess, sys, tempfile
from collections import Counter
from concurrent.futures import ThreadPoolExecutor

HERE = os.path.dirname(os.path.abspath(__file__))
SECONDS = 60
# Ways that take more allocations than can be refused one by one, and differ from the others in their streams alone.
LONG = ("readers", "writers", "cuts")


# The row that says how its update ended, how many calls that has, and how it may end.
IN_STEP, CALLS = "in-step", 124
ENDS = ["closed", "stopped by the number of the refused call", "made all its calls, or wanted memory itself"]


def built(folder):
    """The library that refuses."""
    library = f"{folder}/refuse.so"
    for compiler in ("cc", "clang"):
        try:
            words = [compiler, "-O2", "-shared", "-fPIC", "-o", library, f"{HERE}/refuse.c"]
            if subprocess.run(words, stderr=subprocess.DEVNULL).returncode == 0:
                return library
        except OSError:
            pass
    sys.exit("no C compiler makes a library of refuse.c")


def run(program, words, library, refuse, given=b""):
    """The status, what was written, and how many allocations were asked for."""
    with tempfile.NamedTemporaryFile() as counted:
        counted.write(bytes(8))
        counted.flush()
        room = {"LD_PRELOAD": library, "REFUSE": refuse, "COUNT_IN": counted.name}
        try:
            ran = subprocess.run([*program, *words], env=room, input=given, capture_output=True, timeout=SECONDS)
            status, wrote = ran.returncode, (ran.stdout + ran.stderr).decode(errors="replace")
        except subprocess.TimeoutExpired:
            status, wrote = "none", "hangs"
        counted.seek(0)
        return status, wrote, int.from_bytes(counted.read(8), "little")


def end_of(wrote):
    """How an update in step ended, one of ENDS; None where it may not end so."""
    if wrote == f"Closed {{ calls: {CALLS} }}":
        return ENDS[0]
    found = re.fullmatch(r"Aborted { made: (\d+), accepted: (\d+), late: (?:None|Some\((\d+)\)), cause: Memory }", wrote)
    if not found:
        return None
    made, accepted, late = (it and int(it) for it in found.groups())
    stops = accepted < made < CALLS
    if made > accepted + 3 or late != (accepted + 1 if stops else None):
        return None
    return ENDS[1 if stops else 2]


def sweep(program, library, words):
    """The row's words, how many allocations were refused, how many of these ended the program where all after were refused too, and what
    is wrong."""
    name, wrong, ended, n, ends = " ".join(words), [], 0, 1, Counter()
    while True:
        status, wrote, count = run(program, words, library, str(n))
        front, _, behind = wrote.removesuffix("\n").partition(": ")
        end = end_of(behind) if words[0] == IN_STEP else wrote
        ends[end] += 1
        if status != 0 or front != f"{name} passed" or not end:
            wrong.append(f"{name}, allocation {n}: status {status}, {wrote!r}")
        if count < n or len(wrong) > 100:
            if words[0] == IN_STEP:
                print(f"{name}: {', '.join(f'{ends[it]} times {it}' for it in ENDS)}")
                wrong += [f"{name}: no run {it}" for it in ENDS if not ends[it]]
            return name, n - 1, ended, wrong
        status, wrote, _ = run(program, words, library, f"{n}+")
        ended += status == 3
        if status not in (0, 3):
            wrong.append(f"{name}, all allocations from {n} on: status {status}, {wrote!r}")
        n += 1


# Words for svnup, good and bad. With good words it commits once and says so.
WORDS = [[], ["--in-turn"], ["--capacity", "1"], ["--capacity=4096", "--in-turn"], ["--help"], ["--capacity", "0"], ["--unknown"], ["word"]]
WANTING = [(1, "svnup: out of memory\n"), (0, "refused Memory\n")]


def is_wanted(ran, ample):
    """Whether svnup does what it does with ample memory, or says out of memory."""
    return ran in [ample, *WANTING]


def sweep_words(program, library, words):
    """The same of svnup's words."""
    return sweep_given(" ".join(["svnup", *words]), [program, library, words, b"commit\n"], is_wanted)


# Sessions that svnread serves: those of test_recorded, out of its dump.
SERVED = f"{HERE}/../crates/test_recorded/data/sessions"
SERVES = ["--dump", f"{SERVED}/history.dump", "--root", "repo"]


def is_served(ran, ample):
    """Whether svnread writes what it does with ample memory, or a front of that, and says out of memory: with status 1, or 2 where nothing is served."""
    # (a fault in the words is said by clap)
    said = re.fullmatch(r"(.*?)(?:svnread|error): .*out of memory\n", ran[1], re.S)
    return ran == ample or bool(said) and ran[0] in (1, 1 if said[1] else 2) and ample[1].startswith(said[1])


def sweep_session(program, library, name):
    """The same of a session that svnread serves."""
    with open(f"{SERVED}/{name}", "rb") as file:
        return sweep_given(name, [program, library, SERVES, file.read()], is_served)


def sweep_given(name, how, is_right):
    """The same of a program that is given words and bytes: program, library, words and bytes are what runs it, and what it does must be right beside
    what it does with ample memory."""
    program, library, words, given = how
    wrong, ended, n = [], 0, 1
    ample = run(program, words, library, "0", given)[:2]
    while True:
        status, wrote, count = run(program, words, library, str(n), given)
        if not is_right((status, wrote), ample) or count < n and (status, wrote) != ample:
            wrong.append(f"{name}, allocation {n}: status {status}, {wrote!r}")
        if count < n or len(wrong) > 100:
            return name, n - 1, ended, wrong
        status, wrote, _ = run(program, words, library, f"{n}+", given)
        ended += status == 1
        if not is_right((status, wrote), ample):
            wrong.append(f"{name}, all allocations from {n} on: status {status}, {wrote!r}")
        n += 1


def main():
    of_words, of_sessions = (sys.argv[1:2] == [it] for it in ("--svnup", "--svnread"))
    if of_words or of_sessions:
        del sys.argv[1]
    # the words before the first that is no file start the program
    files = [it for it in sys.argv[1:] if os.path.sep in it or it.startswith("-")]
    program, names = files, [it for it in sys.argv[1:] if it not in files]
    if of_words:
        rows, swept = WORDS, sweep_words
    elif of_sessions:
        rows, swept = sorted(it for it in os.listdir(SERVED) if it.endswith(".client")), sweep_session
    else:
        listed = subprocess.run([*program, "list"], capture_output=True, text=True, check=True).stdout.splitlines()
        rows, swept = [it for it in map(str.split, listed) if it[1] not in LONG and (not names or it[0] in names)], sweep
    found = refused = 0
    with tempfile.TemporaryDirectory() as folder, ThreadPoolExecutor(os.cpu_count()) as pool:
        library = os.environ.get("REFUSER") or built(folder)
        for name, count, ended, wrong in pool.map(lambda it: swept(program, library, it), rows):
            found, refused = found + len(wrong), refused + count
            print(f"{name}: {count} allocations refused; {ended} of them end it where all after are refused too; {len(wrong)} wrong")
            for line in wrong[:20]:
                print(f"    {line}")
            sys.stdout.flush()
    print(f"{len(rows)} rows, {refused} allocations refused, {found} wrong")
    return 1 if found else 0


if __name__ == "__main__":
    sys.exit(main())
