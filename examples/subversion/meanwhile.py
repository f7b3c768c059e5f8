"""Changes a working copy while `svnaudit check` reads it: what damage.py calls last.

A pristine text is a named pipe here. The program opens it after it has read the database, and waits for its bytes: the change is made then.
"""
import os
import shutil
import sqlite3
import subprocess
import time

SECONDS = 60
IN_USE = "the working copy is in use"


def sql(text):
    def change(folder):
        base = sqlite3.connect(f"{folder}/.svn/wc.db")
        base.executescript(text)
        base.close()
    return change


def journal(folder):
    with open(f"{folder}/.svn/wc.db-journal", "wb") as file:
        file.write(b"x")


def another(folder):
    """The file of the database is replaced by that of another copy."""
    shutil.copy("copy/.svn/wc.db", f"{folder}/.svn/wc.db.new")
    os.rename(f"{folder}/.svn/wc.db.new", f"{folder}/.svn/wc.db")


# what is done meanwhile, and how the refusal ends, if there is one
CASES = [("nothing", lambda folder: None, None),
         ("a lock comes", sql("insert into wc_lock values (1, '', -1)"), IN_USE),
         ("a lock comes and goes", sql("insert into wc_lock values (1, '', -1); delete from wc_lock"), IN_USE),
         ("a revision changes", sql("update nodes set revision = revision - 1 where local_relpath = 'one'"), IN_USE),
         ("another database", another, IN_USE),
         ("a journal", journal, IN_USE)]


def opened(path, program):
    """The pipe, as soon as the program reads from it; None if the program ends before."""
    until = time.monotonic() + SECONDS
    while time.monotonic() < until and program.poll() is None:
        try:
            return os.fdopen(os.open(path, os.O_WRONLY | os.O_NONBLOCK), "wb")
        except OSError:
            time.sleep(.01)
    return None


def with_pipe(folder):
    """A copy of the small copy with its first pristine text as a pipe: its path and the text."""
    shutil.copytree("small", folder)
    path = sorted(f"{at}/{name}" for at, _, names in os.walk(f"{folder}/.svn/pristine") for name in names)[0]
    with open(path, "rb") as file:
        text = file.read()
    os.remove(path)
    os.mkfifo(path)
    return path, text


def fault_of(program, name, change, wanted):
    """What is wrong where this is done meanwhile."""
    path, text = with_pipe("meanwhile")
    ran = subprocess.Popen([program, "check", "dump", "meanwhile"], stdout=subprocess.PIPE, stderr=subprocess.PIPE, text=True)
    try:
        pipe = opened(path, ran)
        if pipe is None:
            ran.kill()
            return f"{name}: no text was read: {ran.communicate()}"
        with pipe:
            change("meanwhile")
            pipe.write(text)
        out, err = ran.communicate(timeout=SECONDS)
    finally:
        ran.kill()
        shutil.rmtree("meanwhile")
    good = (ran.returncode, out, err) == (2, "", f"svnaudit: meanwhile: {wanted}\n") if wanted else ran.returncode == 0 and "meanwhile: true: " in out
    return None if good else f"{name}: status {ran.returncode}, {out!r}, {err!r}"


def meanwhile(program):
    """How many were compared, and how many are wrong."""
    wrong = [it for it in (fault_of(program, *case) for case in CASES) if it]
    print(f"meanwhile: {len(CASES)} changes while the copy is read; {len(wrong)} wrong")
    for line in wrong:
        print(f"    {line}")
    return len(CASES), len(wrong)
