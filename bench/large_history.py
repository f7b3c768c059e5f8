#!/usr/bin/env python3
"""Writes a dump to measure with (bench/on_disk).

    large_history.py [FILES [REVISIONS [CHANGED]]] | svnadmin load -q --no-flush-to-disk REPO

Revision 1 adds so many files of about 1,000 bytes, by default 80,000, to directories of 100 each; each later one, by default up to revision 100, changes
so many of them, by default 500, and a property of a tenth of these.
"""
import hashlib
import sys


def text_of(number, rev):
    line = f"file {number} of revision {rev}: {hashlib.sha1(b'%d %d' % (number, rev)).hexdigest()}\n"
    return (line * 16).encode()


def props(pairs):
    found = b"".join(b"K %d\n%s\nV %d\n%s\n" % (len(name), name, len(value), value) for name, value in pairs)
    return found + b"PROPS-END\n"


def write_node(out, path, kind, action, text=None, section=None):
    head = [b"Node-path: " + path, b"Node-kind: " + kind, b"Node-action: " + action]
    if section is not None:
        head.append(b"Prop-content-length: %d" % len(section))
    if text is not None:
        head += [b"Text-content-length: %d" % len(text), b"Text-content-md5: " + hashlib.md5(text).hexdigest().encode(),
                 b"Text-content-sha1: " + hashlib.sha1(text).hexdigest().encode()]
    body = (section or b"") + (text or b"")
    head.append(b"Content-length: %d" % len(body))
    out.write(b"\n".join(head) + b"\n\n" + body + b"\n\n")


def main(words):
    files = int(words[0]) if words else 80000
    revisions = int(words[1]) if words[1:] else 100
    changed = min(int(words[2]) if words[2:] else 500, files)
    out = sys.stdout.buffer
    out.write(b"SVN-fs-dump-format-version: 2\n\nUUID: 3f0f6a6e-0000-4000-8000-000000000052\n\n")
    none = props([])

    def path_of(number):
        return b"trunk/d%02d/e%03d/f%05d.c" % (number // 1000, number // 100, number)

    for rev in range(1, revisions + 1):
        section = props([(b"svn:log", b"change"), (b"svn:date", b"2020-01-01T00:00:00.000000Z")])
        out.write(b"Revision-number: %d\nProp-content-length: %d\nContent-length: %d\n\n%s\n" % (rev, len(section), len(section), section))
        if rev == 1:
            write_node(out, b"trunk", b"dir", b"add", None, none)
            for number in range(files):
                if number % 1000 == 0:
                    write_node(out, b"trunk/d%02d" % (number // 1000), b"dir", b"add", None, none)
                if number % 100 == 0:
                    write_node(out, b"trunk/d%02d/e%03d" % (number // 1000, number // 100), b"dir", b"add", None, none)
                write_node(out, path_of(number), b"file", b"add", text_of(number, 1), none)
            continue
        for step in range(changed):
            number = (rev * 7919 + step * (files // changed)) % files
            section = props([(b"checked", b"%d" % rev)]) if step % 10 == 0 else None
            write_node(out, path_of(number), b"file", b"change", text_of(number, rev), section)


if __name__ == "__main__":
    main(sys.argv[1:])
