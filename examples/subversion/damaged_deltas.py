#!/usr/bin/env python3
"""Damages a dump of `svnrdump dump`, in ways that `svncopy` refuses by name.

    damaged_deltas.py DUMP FOLDER

makes dumps in FOLDER, and prints for each its name, and what its refusal is: the byte at which the record begins, and why.
"""
import hashlib
import os
import sys

dump = open(sys.argv[1], 'rb').read()
folder = sys.argv[2]
HEADER = b'Text-delta-base-md5: '


def put(name, content, record, why):
    with open(os.path.join(folder, name), 'wb') as out:
        out.write(content)
    print(f'{name} byte {record}: {why}')


def record_before(content, at):
    """Where the record begins that has a byte."""
    return max(content.rfind(b'\n' + word, 0, at) for word in (b'Node-path: ', b'Revision-number: ', b'UUID: ')) + 1


at = dump.index(HEADER) + len(HEADER)
record = record_before(dump, at)
put('unknown', dump[:at] + b'0' * 32 + dump[at + 32:], record, "a text delta over a text that the dump doesn't give before it")
put('unsaid', dump[:at - len(HEADER)] + dump[at + 33:], record, 'a text delta without the MD5 checksum of the text before')

# the text before is another one, which is given: what the delta makes of it isn't what it says, or its source isn't as long
empty = hashlib.md5(b'').hexdigest().encode()
text = dump.index(b'SVN\0', at)
put('other', dump[:at] + empty + dump[at + 32:], record, f'text delta: byte 4: source view past the end of the source')

# a digit of the checksum of the first text
sums = dump.index(b'Text-content-md5: ') + len(b'Text-content-md5: ')
put('wrong', dump[:sums] + bytes([dump[sums] ^ 1]) + dump[sums + 1:], record_before(dump, sums), "the text isn't of its MD5 checksum")

cut = dump[:-3]
put('cut', cut, record_before(cut, len(cut)), 'the dump ends within a record')


def node(path, base, text):
    """A node whose text is a delta over another."""
    delta = b'SVN\0' + bytes([0, len(base), len(text), 1, len(text), 0x80 | len(text)]) + text
    return b'Node-path: %s\nNode-kind: file\nNode-action: add\nText-delta: true\nText-delta-base-md5: %s\nText-content-md5: %s\nText-content-length: %d\nContent-length: %d\n\n%s\n\n' % (
        path, hashlib.md5(base).hexdigest().encode(), hashlib.md5(text).hexdigest().encode(), len(delta), len(delta), delta)


front = b'SVN-fs-dump-format-version: 3\n\nUUID: 11111111-2222-3333-4444-555555555555\n\n'
front += b''.join(b'Revision-number: %d\nProp-content-length: 10\nContent-length: 10\n\nPROPS-END\n\n' % rev for rev in (0, 1))
put('loop', front + node(b'f', b'two', b'one') + node(b'g', b'one', b'two'), len(front), "a text delta over a text that the dump doesn't give before it")
