#!/usr/bin/python3
"""Makes a random history by Subversion's library, and prints its revisions in the lines of `svnaudit show`: what dump_both_ways.sh calls.

    random_history.py SEED REVISIONS REPO   makes the repository in a folder that isn't there yet
    random_history.py --show REPO REV       prints the tree of a revision, texts as they are

It needs Debian's package `python3-subversion`. The client makes no such histories: files without a text, properties with any bytes, copies of any revision
to anywhere, several changes of one path in a revision.
"""
import random
import sys

import svn.core
import svn.fs
import svn.repos

from trees import joined, path_word, word


def plain(text):
    return text if isinstance(text, bytes) else text.encode('utf-8', 'surrogateescape')


NAMES = [b'a', b'b', b'c', b'lib', 'ü'.encode(), b'x y', b'f%']


class Maker:
    """Random changes in transactions of svn_fs."""

    def __init__(self, seed, repo):
        self.rng, self.repos = random.Random(seed), svn.repos.create(repo, None, None, None, None)
        self.fs = svn.repos.fs(self.repos)

    def paths(self, root):
        dirs, files = [b''], []

        def walk(path, depth):
            for name in svn.fs.dir_entries(root, path) if depth < 5 and len(dirs) + len(files) < 300 else ():
                below = path + b'/' + plain(name) if path else plain(name)
                if svn.fs.is_dir(root, below):
                    dirs.append(below)
                    walk(below, depth + 1)
                else:
                    files.append(below)
        walk(b'', 0)
        return dirs, files

    def put(self, root, path, text):
        stream = svn.fs.apply_text(root, path, None)
        svn.core.svn_stream_write(stream, text)
        svn.core.svn_stream_close(stream)

    def step(self, root, young):
        rng = self.rng
        dirs, files = self.paths(root)
        op = rng.choice(['mkdir', 'put', 'put', 'edit', 'edit', 'prop', 'prop', 'remove', 'copy', 'copy', 'replace', 'touch'])
        above, name = rng.choice(dirs), rng.choice(NAMES)
        path = above + b'/' + name if above else name
        there = svn.fs.check_path(root, path) != svn.core.svn_node_none
        text = bytes(rng.randrange(256) for _ in range(rng.randrange(60))) if rng.random() < .5 else b'line %d\n' % rng.randrange(9) * rng.randrange(200)
        if op == 'mkdir' and not there and path.count(b'/') < 5:
            svn.fs.make_dir(root, path)
        elif op == 'put' and not there:
            svn.fs.make_file(root, path)
            if rng.random() < .9:
                self.put(root, path, text)
        elif op == 'edit' and files:
            self.put(root, rng.choice(files), text)
        elif op == 'prop':
            svn.fs.change_node_prop(root, rng.choice(dirs + files), rng.choice(['svn:ignore', 'p', 'q:r', 'x']), rng.choice([None, b'', b'v', text]))
        elif op == 'touch' and files:
            path = rng.choice(files)
            self.put(root, path, b'same')
            self.put(root, path, b'same')
        elif op in ('remove', 'replace') and there:
            svn.fs.delete(root, path)
            if op == 'replace' and rng.random() < .5:
                svn.fs.make_file(root, path)
                self.put(root, path, text)
            elif op == 'replace':
                svn.fs.make_dir(root, path)
        elif op == 'copy' and young > 0:
            old = svn.fs.revision_root(self.fs, rng.randrange(1, young + 1))
            source = rng.choice(sum(self.paths(old), []))
            if there and rng.random() < .5:
                svn.fs.delete(root, path)
                there = False
            if not there and b'/' in path and source.count(b'/') < 3 and path.count(b'/') < 4:
                svn.fs.copy(old, source, root, path)

    def commit(self):
        young = svn.fs.youngest_rev(self.fs)
        txn = svn.fs.begin_txn2(self.fs, young, 0)
        root = svn.fs.txn_root(txn)
        for _ in range(self.rng.randrange(8)):
            try:
                self.step(root, young)
            except svn.core.SubversionException:
                pass
        svn.fs.commit_txn(txn)


def show(repo, rev):
    """Prints the tree of a revision."""
    # (the bindings keep the repository no longer than its name does)
    opened = svn.repos.open(repo)
    root = svn.fs.revision_root(svn.repos.fs(opened), rev)

    def walk(path):
        name = path_word(path)
        if svn.fs.is_dir(root, path):
            print(name, "dir", rev, name)
        else:
            stream, text = svn.fs.file_contents(root, path), b""
            while more := svn.core.svn_stream_read(stream, 1 << 16):
                text += more
            print(name, "file", rev, name, word(text))
        for prop, value in sorted((plain(prop), bytes(value)) for prop, value in (svn.fs.node_proplist(root, path) or {}).items()):
            print(name, "prop", word(prop), word(value))
        if svn.fs.is_dir(root, path):
            for below in sorted(map(plain, svn.fs.dir_entries(root, path))):
                walk(joined(path, below))
    walk(b"")


def main(words):
    if len(words) != 3:
        sys.exit(__doc__.strip())
    if words[0] == "--show":
        show(words[1], int(words[2]))
        return
    maker = Maker(int(words[0]), words[2])
    for _ in range(int(words[1])):
        maker.commit()


if __name__ == "__main__":
    main(sys.argv[1:])
