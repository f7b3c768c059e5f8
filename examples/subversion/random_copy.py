#!/usr/bin/env python3
"""Makes a working copy of several revisions, with switched paths, nodes that aren't present, and maybe cut off in mid-update: what updates.sh calls.

    random_copy.py SEED REPO WC [--local] [--killed]

With --local there are local changes too; with --killed an update was killed, and `svn cleanup` has run since. Prints what was done.
"""
import os
import random
import subprocess
import sys
import urllib.parse


def svn(*words):
    return subprocess.run(("svn", "-q", "--non-interactive") + words, stdout=subprocess.PIPE, stderr=subprocess.DEVNULL)


def tree(repo, rev):
    """The directories and the files of a revision."""
    lines = subprocess.run(("svnlook", "tree", "--full-paths", "-r", str(rev), repo), stdout=subprocess.PIPE, check=True).stdout.decode().split("\n")
    paths = [it for it in lines if it and it != "/"]
    return [it.rstrip("/") for it in paths if it.endswith("/")], [it for it in paths if not it.endswith("/")]


class Maker:
    def __init__(self, seed, repo, copy):
        self.rng, self.repo, self.copy = random.Random(seed), repo, copy
        self.url = "file://" + os.path.abspath(repo)
        self.last = int(subprocess.run(("svnlook", "youngest", repo), stdout=subprocess.PIPE, check=True).stdout)

    def rev(self):
        return self.rng.randrange(1, self.last + 1)

    def at(self, path, rev):
        return f"{self.url}/{urllib.parse.quote(path)}@{rev}"

    def nodes(self):
        folders, files = [], []
        for above, names, leaves in os.walk(self.copy):
            names[:] = sorted(it for it in names if it != ".svn")
            folders += [os.path.join(above, it) for it in names]
            files += [os.path.join(above, it) for it in sorted(leaves)]
        return folders, files

    def some(self):
        folders, files = self.nodes()
        return self.rng.choice(folders + files) if folders + files else self.copy

    def check_out(self):
        rev = self.rev()
        folders, _ = tree(self.repo, rev)
        path = self.rng.choice(folders) if folders and self.rng.random() < .3 else ""
        svn("checkout", self.at(path, rev), self.copy, "-r", str(rev))
        print(f"checkout {path or '.'}@{rev}")

    def mix(self):
        path, rev = self.some(), self.rev()
        svn("update", "-r", str(rev), path + "@")
        print(f"update {path}@{rev}")

    def switch(self):
        for _ in range(12):
            path, rev = self.some(), self.rev()
            folders, files = tree(self.repo, rev)
            there = folders if os.path.isdir(path) else files
            if there:
                to = self.rng.choice(there)
                # (of the path of a switch Subversion reads no revision)
                if svn("switch", self.at(to, rev), path, "-r", str(rev)).returncode == 0:
                    print(f"switch {path} to {to}@{rev}")
                    return

    def kill(self):
        rev, count = self.rev(), self.rng.randrange(1, 40)
        call = self.rng.choice(["rename", "unlink", "fsync", "openat", "pwrite64"])
        count *= {"openat": 12, "pwrite64": 8}.get(call, 1)
        subprocess.run(("strace", "-f", "-o", "/dev/null", "-e", f"trace={call}", "-e", f"inject={call}:signal=SIGKILL:when={count}",
                        "svn", "-q", "update", "-r", str(rev), self.copy), stdout=subprocess.DEVNULL, stderr=subprocess.DEVNULL)
        for _ in range(3):
            if svn("cleanup", self.copy).returncode == 0:
                break
        print(f"killed at {call} {count}, on the way to r{rev}")

    def change(self):
        folders, files = self.nodes()
        what = self.rng.choice(["edit", "property", "add", "unversioned", "remove", "changelist", "copy"])
        above = self.rng.choice([self.copy] + folders)
        if what in ("add", "unversioned"):
            path = os.path.join(above, "mine-" + what)
            with open(path, "w") as file:
                file.write("mine\n")
            if what == "add":
                svn("add", path + "@")
        elif files:
            path = self.rng.choice(files)
            if what == "edit" and os.path.isfile(path) and not os.path.islink(path):
                os.chmod(path, os.stat(path).st_mode | 0o200)
                with open(path, "ab") as file:
                    file.write(b"mine\n")
            elif what == "property":
                svn("propset", "mine", "yes", self.rng.choice([path, above]) + "@")
            elif what == "remove":
                svn("remove", path + "@")
            elif what == "changelist":
                svn("changelist", "mine", path + "@")
            elif what == "copy":
                svn("copy", path + "@", os.path.join(above, "mine-copy"))
        print(what)


def main(words):
    if len(words) < 3:
        sys.exit(__doc__.strip())
    maker = Maker(int(words[0]), words[1], words[2])
    maker.check_out()
    for _ in range(maker.rng.randrange(5)):
        maker.mix()
    for _ in range(maker.rng.choice([0, 0, 1, 1, 2])):
        maker.switch()
    if "--killed" in words:
        maker.kill()
    if "--local" in words:
        for _ in range(maker.rng.randrange(1, 4)):
            maker.change()


if __name__ == "__main__":
    main(sys.argv[1:])
