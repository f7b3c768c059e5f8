#!/usr/bin/env python3
"""Damages a working copy in many ways, and says what `svnaudit check` does then: what damaged_copies.sh calls.

    damage.py PROGRAM EVERY CHANGES

In the current folder there are `dump`, the copy `copy` and the small one `small`. Of each group of damages each EVERY-th is made; CHANGES bytes are changed.
"""
import os
import random
import re
import shutil
import sqlite3
import subprocess
import sys
from concurrent.futures import ThreadPoolExecutor

from meanwhile import meanwhile

HERE = os.path.dirname(os.path.abspath(__file__))
# How many copies one call is given, and how many seconds it has.
BATCH, SECONDS = 100, 120
DATABASE = "copy/.svn/wc.db"


def read(path):
    with open(path, "rb") as file:
        return file.read()


def write(path, data):
    with open(path, "wb") as file:
        file.write(data)


class Damage:
    """A name, the bytes of the database, those of the journal, and the bytes of pristine texts by path, None for one that is missing. `wanted` is what
    the refusal ends with, where just one is right."""

    def __init__(self, name, database, journal=b"", pristine=(), wanted=None):
        self.name, self.database, self.journal, self.pristine, self.wanted = name, database, journal, dict(pristine), wanted

    def make(self, folder):
        os.makedirs(f"{folder}/.svn")
        write(f"{folder}/.svn/wc.db", self.database)
        write(f"{folder}/.svn/wc.db-journal", self.journal)
        if not self.pristine:
            os.symlink(os.path.abspath("copy/.svn/pristine"), f"{folder}/.svn/pristine")
            return
        shutil.copytree("copy/.svn/pristine", f"{folder}/.svn/pristine")
        for path, data in self.pristine.items():
            path = f"{folder}/.svn/pristine/{path}"
            os.remove(path)
            if data is not None:
                write(path, data)


def number(value):
    return (value % 2**32).to_bytes(4, "big")


def changed(data, at, put):
    return data[:at] + put + data[at + len(put):]


def cuts(data):
    for page in range(0, len(data), 4096):
        yield Damage(f"cut to {page // 4096} pages", data[:page])
    for length in range(4096):
        yield Damage(f"cut to {length} bytes", data[:length])


def changes(data, count):
    rng = random.Random(52)
    for _ in range(count):
        # half of the places are at the heads of pages, where one byte says most
        at = rng.randrange(len(data)) if rng.random() < .5 else rng.randrange(len(data) // 4096) * 4096 + rng.randrange(120)
        put = rng.choice([data[at] ^ 1 << rng.randrange(8), 0, 255, rng.randrange(256)])
        yield Damage(f"byte {at} is {put}", changed(data, at, bytes([put])))


def loops(data):
    """The pages of each interior page lead anywhere, to itself for one."""
    pages = len(data) // 4096
    for page in range(1, pages):
        start = page * 4096
        if data[start] in (2, 5):
            first = start + int.from_bytes(data[start + 12:start + 14], "big")
            for at in (start + 8, first):
                for to in (0, 1, page + 1, pages, pages + 1, 2**31, 2**32 - 1):
                    yield Damage(f"a page at {at} is {to}", changed(data, at, number(to)))
    root = sqlite3.connect(DATABASE).execute("select rootpage from sqlite_master where name = 'NODES'").fetchone()[0]
    start = (root - 1) * 4096
    for page in range(pages):
        yield Damage(f"the root of NODES is page {page + 1}", changed(data, start, data[page * 4096:][:4096]))


def chains(data):
    """Overflow pages that lead anywhere."""
    pages, found = len(data) // 4096, []
    for page in range(pages):
        if data[page * 4096 + 4:][:100] == b"v" * 100:
            found += [page * 4096] + [it.start() + 1 for it in re.finditer(b"v" + re.escape(number(page + 1)), data)]
    if not found:
        sys.exit("the copy has no overflow pages")
    for at in found:
        for to in (0, 1, 2, at // 4096 + 1, pages, pages + 1, 2**31, 2**32 - 1):
            yield Damage(f"an overflow page at {at} is {to}", changed(data, at, number(to)))


SKELS = [b"", b"(", b")", b"()", b"(a)", b"(a b", b"(a b c)", b"(a b)x", b"(a b) ", b"((a b))", b"(a (b c))", b"(1 a 1 b)", b"(1 a 9 b)", b"(1 a 1b)",
         b"(99999999999999999999 a b)", b"(18446744073709551615 a b)", b"(4294967296 a 1 b)", b"(0  0 )", b"(0 a)", b"(a b a c)", b"(1 a 1 b 1 a 1 c)",
         b"(-1 a b)", b"(01 a 1 b)", b"a", b"1 a", b"\0", b"(\0 a)", b"(3 a\0b 1 c)", b"(" * 5000, b"(a " * 5000, b"(svn:wc:x y)", b"(4 a\xffb\xfe 1 c)"]
VALUES = ["null", "''", "0", "-1", "99999999999", "9223372036854775807", "1.5", "x'00'", "'x'", "'../x'", "'/x'", "'a//b'", "'a/'", "'sha1'", "'$sha1$'", "'dir'",
          "'file'", "'symlink'", "'normal'", "'incomplete'", "'not-present'", "'excluded'", "'server-excluded'", "'base-deleted'", "'empty'", "'infinity'"]
COLUMNS = ["wc_id", "local_relpath", "op_depth", "parent_relpath", "repos_id", "repos_path", "revision", "presence", "depth", "kind", "checksum", "properties",
           "file_external", "moved_here"]
PRISTINE = ["checksum", "compression", "size", "refcount", "md5_checksum"]


def rows(data):
    """What SQLite itself writes into rows: skels that lie, and each column with values of each type."""
    puts = [("properties", f"x'{skel.hex()}'", where) for skel in SKELS for where in ("d2", "d3/a file of some name 5")]
    puts += [(column, value, where) for column in COLUMNS for value in VALUES for where in ("", "d2", "d3/a file of some name 5")]
    asked = [(f"{where or 'the root'}: {column} is {value[:60]}", f"update nodes set {column} = {value} where local_relpath = '{where}'") for column, value, where in puts]
    asked += [(f"a pristine text: {column} is {value}", f"update pristine set {column} = {value} where rowid = 1") for column in PRISTINE for value in VALUES]
    asked += [("a pristine text is lost", "delete from pristine where rowid = 1"), ("no pristine text", "delete from pristine")]
    for name, text in asked:
        write("row.db", data)
        base = sqlite3.connect("row.db")
        try:
            base.execute("pragma ignore_check_constraints = on")
            base.execute(text)
            base.commit()
        except sqlite3.Error:
            continue
        finally:
            base.close()
        yield Damage(name, read("row.db"))


def first_file(sum_):
    """The path, as a word, of the first row whose file has this checksum."""
    found = sqlite3.connect(DATABASE).execute("select local_relpath from nodes where op_depth = 0 and checksum = ? order by rowid", (f"$sha1${sum_}",))
    return "".join(chr(it) if 0x21 <= it <= 0x7e and it not in b'%"' else f"%{it:02X}" for it in found.fetchone()[0].encode())


def texts(data):
    for folder, _, names in sorted(os.walk("copy/.svn/pristine")):
        for name in sorted(names):
            path, sum_ = os.path.relpath(f"{folder}/{name}", "copy/.svn/pristine"), name.removesuffix(".svn-base")
            said = f"{first_file(sum_)}: pristine text $sha1${sum_}: "
            yield Damage(f"{name} is missing", data, pristine={path: None}, wanted=said + "No such file or directory (os error 2)")
            yield Damage(f"{name} is empty", data, pristine={path: b""}, wanted=said + "the file is empty")
            yield Damage(f"{name} is another", data, pristine={path: b"other\n"}, wanted=said + "the file has another SHA-1 checksum")


def others(data):
    """Other files, and journals."""
    write("row.db", b"")
    for text in ("create table t(a)", "drop table t", "create table nodes(a); insert into nodes values (1)", "pragma user_version = 31", "pragma page_size = 512; vacuum",
                 "drop table nodes; vacuum", "create table wcroot(id integer primary key, local_abspath text)", "pragma encoding = 'UTF-16'; vacuum"):
        base = sqlite3.connect("row.db")
        try:
            base.executescript(text)
        except sqlite3.Error:
            pass
        base.close()
        yield Damage(f"another database, up to {text}", read("row.db"))
    for name in ("dump", "said", "repo/db/uuid", sys.executable):
        yield Damage(f"the file {name}", read(name)[:200000])
    for journal in (b"x", b"\0" * 28, bytes.fromhex("d9d505f920a163d7") + bytes(504)):
        yield Damage("a journal", data, journal=journal, wanted="the database has a journal: a client is at work, or was cut off, and `svn cleanup` comes first")


def state(folder):
    """What must not change."""
    return sorted(os.listdir(f"{folder}/.svn")), read(f"{folder}/.svn/wc.db"), read(f"{folder}/.svn/wc.db-journal")


def outcome(folder, damage, out, err):
    """What is wrong of one copy, and what was said of it."""
    printed = [it for it in out if it.startswith(f"{folder}: ")]
    refused = [it for it in err if it.startswith(f"svnaudit: {folder}: ") and ": passed over: " not in it]
    if len(refused) > 1 or bool(refused) == bool(printed):
        return f"{damage.name}: printed {printed}, refused by {refused}", "wrong"
    if damage.wanted is not None and refused != [f"svnaudit: {folder}: {damage.wanted}"]:
        return f"{damage.name}: {refused or printed} and not '{damage.wanted}'", "wrong"
    return None, "refused" if refused else "true" if ": true: " in printed[0] else "untrue"


def batch(program, name, damages):
    """What is wrong of several copies in one call, and how many were true, untrue and refused."""
    folders = [f"{name}.{it}" for it in range(len(damages))]
    for folder, damage in zip(folders, damages):
        damage.make(folder)
    before = [state(it) for it in folders]
    try:
        ran = subprocess.run([program, "check", "dump", *folders], capture_output=True, timeout=SECONDS)
    except subprocess.TimeoutExpired:
        for it in folders:
            shutil.rmtree(it)
        if len(damages) == 1:
            return [f"{damages[0].name}: NO END WITHIN {SECONDS} SECONDS"], []
        halves = [batch(program, f"{name}{side}", part) for side, part in (("l", damages[:len(damages) // 2]), ("r", damages[len(damages) // 2:]))]
        return halves[0][0] + halves[1][0], halves[0][1] + halves[1][1]
    out, err = (it.decode(errors="replace").splitlines() for it in (ran.stdout, ran.stderr))
    wrong, found = [], []
    for folder, damage, was in zip(folders, damages, before):
        fault, what = outcome(folder, damage, out, err)
        if state(folder) != was:
            fault = f"{damage.name}: THE COPY WAS CHANGED"
        wrong += [fault] if fault else []
        found.append(what)
        shutil.rmtree(folder)
    known = tuple(f"{it}: " for it in folders)
    wrong += [f"a line of no copy: {it[:200]}" for it in out if not it.startswith(known)][:5]
    wrong += [f"a line of no copy: {it[:200]}" for it in err if not it.removeprefix("svnaudit: ").startswith(known)][:5]
    status = 2 if "refused" in found else 1 if "untrue" in found else 0
    if ran.returncode != status and "wrong" not in found:
        wrong.append(f"{damages[0].name} and {len(damages) - 1} more: status {ran.returncode} and not {status}")
    return wrong, found


def group(program, name, every, damages):
    """One group of damages; how many are wrong."""
    taken = list(damages)[::every]
    parts = [taken[it:it + BATCH] for it in range(0, len(taken), BATCH)]
    with ThreadPoolExecutor(os.cpu_count()) as pool:
        done = list(pool.map(lambda it: batch(program, f"{name}{it[0]}", it[1]), enumerate(parts)))
    wrong, found = sum((it[0] for it in done), []), sum((it[1] for it in done), [])
    print(f"{name}: {len(taken)} copies: {', '.join(f'{found.count(it)} {it}' for it in ('true', 'untrue', 'refused'))}; {len(wrong)} wrong")
    for line in wrong[:10]:
        print(f"    {line}")
    sys.stdout.flush()
    return len(taken), len(wrong)


TOPICS = ("report", "update", "calls", "nodes")


def said_by(program, *words):
    """Its status, whether it printed a line, and what it wrote on standard error but for what is passed over."""
    ran = subprocess.run([program, *words], capture_output=True, timeout=SECONDS)
    refused = [it for it in ran.stderr.decode(errors="replace").splitlines() if ": passed over: " not in it]
    return ran.returncode, bool(ran.stdout), refused


def questions_about(program, folder, damage):
    """What is wrong of the other commands: they refuse what `check` refuses, and an untrue copy unless it is allowed."""
    damage.make(folder)
    was, wrong = state(folder), []
    try:
        status, _, refused = said_by(program, "check", "dump", folder)
        for topic in TOPICS:
            found = said_by(program, topic, "dump", folder)
            allowed = said_by(program, topic, "--allow-untrue", "dump", folder)
            if status == 2:
                good = found == allowed == (2, False, refused)
            else:
                # a drive may refuse an untrue copy, in one line
                untrue = found[0] == 2 and not found[1] and len(found[2]) == 1 and found[2][0].endswith(" (see --allow-untrue)")
                good = untrue and (allowed[0] == 0 and not allowed[2] or allowed[0] == 2 and len(allowed[2]) == 1) if status == 1 else found == allowed and found[0] == 0 and not found[2]
            if not good:
                wrong.append(f"{damage.name}: check ends with {status} {refused}, {topic} with {found}, with --allow-untrue {allowed}")
    except subprocess.TimeoutExpired as late:
        wrong.append(f"{damage.name}: NO END WITHIN {SECONDS} SECONDS: {late.cmd}")
    if state(folder) != was:
        wrong.append(f"{damage.name}: THE COPY WAS CHANGED")
    shutil.rmtree(folder)
    return wrong


def questions(program, every, damages):
    """The other commands, of each EVERY-th damage."""
    taken = damages[::every]
    with ThreadPoolExecutor(os.cpu_count()) as pool:
        wrong = sum(pool.map(lambda it: questions_about(program, f"question{it[0]}", it[1]), enumerate(taken)), [])
    print(f"report, update, calls, nodes: {len(taken)} copies; {len(wrong)} wrong")
    for line in wrong[:10]:
        print(f"    {line}")
    return len(taken) * len(TOPICS), len(wrong)


# the last line; the second is of the crate that reads the words
OUT_OF_MEMORY = re.compile(r"(svnaudit: (small: |words of the command line: )?|error: )out of memory\n\Z")
SCRIPT = "mkdir d\nput d/f one\nprop d p v\ncommit\ncopy 1 d e\nput d/f two\nunprop d p\ncommit\nremove e\ncommit\n"


def is_refused(ample, said):
    """Whether it printed the beginning of what it prints with ample memory, and then that it is out of memory."""
    end = OUT_OF_MEMORY.search(said)
    return end is not None and ample.startswith(said[:end.start()])


def allocations_of(sweep, program, words, every):
    """Each allocation of one command refused, alone and with all after it: how many there are, and what was wrong."""
    library = sweep.built(os.getcwd())
    ample, wrote, count = sweep.run([program], words, library, "0")

    def one(refuse):
        status, said, _ = sweep.run([program], words, library, refuse)
        good = (status, said) == (ample, wrote) or status == 2 and is_refused(wrote, said)
        return None if good else f"{words[0]}, allocation {refuse}: status {status}, {said[:200]!r}"
    numbers = range(1, count + 1, every)
    with ThreadPoolExecutor(os.cpu_count()) as pool:
        return len(numbers), [it for it in pool.map(one, [f"{n}{end}" for n in numbers for end in ("", "+")]) if it]


def allocations(program, every):
    """The allocations of commands on the small copy, and of a script that is written."""
    sys.path.insert(0, f"{HERE}/../../sweep")
    import run as sweep
    with open("script", "w", encoding="utf-8") as file:
        file.write(SCRIPT)
    commands = [["check", "dump", "small"], ["update", "dump", "small"], ["nodes", "dump", "small"], ["write", "script"]]
    found = [allocations_of(sweep, program, words, every) for words in commands]
    count, wrong = sum(it[0] for it in found), sum((it[1] for it in found), [])
    if not count:
        print("allocations: the program has its own allocator, so none can be refused (an address-checking build)")
    print(f"allocations: {count} refused, alone and with all after; {len(wrong)} wrong")
    for line in wrong[:10]:
        print(f"    {line}")
    return 2 * count, len(wrong)


def main(words):
    if len(words) != 3:
        sys.exit(__doc__.strip())
    program, every, count = words[0], int(words[1]), int(words[2])
    data = read(DATABASE)
    groups = [("texts", texts(data)), ("others", others(data)), ("chains", chains(data)), ("loops", loops(data)), ("rows", rows(data)), ("cuts", cuts(data)),
              ("changes", changes(data, count))]
    done = [group(program, name, every, damages) for name, damages in groups]
    done.append(questions(program, every, [*texts(data), *others(data), *rows(data), *[*loops(data), *chains(data), *cuts(data)][::20]]))
    done.append(meanwhile(program))
    done.append(allocations(program, every))
    made, wrong = (sum(it) for it in zip(*done))
    print(f"{made} compared, {wrong} wrong")
    return 1 if wrong else 0


if __name__ == "__main__":
    sys.exit(main(sys.argv[1:]))
