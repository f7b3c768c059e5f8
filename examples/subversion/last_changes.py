#!/usr/bin/env python3
"""Says of a dump what Subversion has of each node's last change, in the lines of crates/test_recorded; or makes that crate's stdin and the end of its stdout anew.

    last_changes.py DUMP           prints the lines of a dump that begins with revision 0
    last_changes.py --make         makes a small history by svn, and writes stdin and the end of stdout

The revision of a last change is what `svn ls -R` and `svn info` say of each revision, a date and an author are the revision's properties. The places of
texts are found in the dump's bytes. It needs Debian's package `subversion` and python3."""
import datetime
import hashlib
import os
import subprocess
import sys
import tempfile
import xml.etree.ElementTree as ET

CRATE = os.path.join(os.path.dirname(os.path.abspath(__file__)), '..', '..', 'crates', 'test_recorded')
# With what the lines begin; other tests print what comes before them.
FIRST = '0 . 0 '
DAY_ZERO = datetime.datetime(1970, 1, 1, tzinfo=datetime.timezone.utc)


def run(*words, **more):
    return subprocess.run(words, check=True, stdout=subprocess.PIPE, **more).stdout


def texts_of(dump):
    """Where the first whole text of each SHA-1 checksum is: so many bytes before it, and how many it has."""
    places, at = {}, 0
    while at < len(dump):
        if dump[at:at + 1] == b'\n':
            at += 1
            continue
        end = dump.index(b'\n\n', at) + 2
        headers = dict(line.split(b': ', 1) for line in dump[at:end - 2].split(b'\n'))
        props = int(headers.get(b'Prop-content-length', 0))
        text = int(headers.get(b'Text-content-length', 0))
        if b'Text-content-length' in headers and headers.get(b'Text-delta') != b'true':
            begin = end + props
            places.setdefault(hashlib.sha1(dump[begin:begin + text]).hexdigest(), (begin, text))
        at = end + props + text
    return places


def micros(date):
    time = datetime.datetime.strptime(date, '%Y-%m-%dT%H:%M:%S.%fZ').replace(tzinfo=datetime.timezone.utc)
    return (time - DAY_ZERO) // datetime.timedelta(microseconds=1)


def said_of(url, rev):
    """The date and the author of a revision, as they are printed."""
    listing = ET.fromstring(run('svn', 'proplist', '--xml', '-v', '--revprop', '-r', str(rev), url))
    props = {p.get('name'): p.text or '' for p in listing.iter('property')}
    date = str(micros(props['svn:date'])) if 'svn:date' in props else '-'
    return f"{date} {props.get('svn:author', '-')}"


def changes_of(url, rev):
    """The last change of each node of a revision, by its path, and which are files."""
    entry = ET.fromstring(run('svn', 'info', '--xml', '-r', str(rev), f'{url}@{rev}')).find('entry')
    changes = {'': int(entry.find('commit').get('revision'))}
    files = set()
    for entry in ET.fromstring(run('svn', 'ls', '-R', '--xml', f'{url}@{rev}')).iter('entry'):
        path = entry.find('name').text
        changes[path] = int(entry.find('commit').get('revision'))
        if entry.get('kind') == 'file':
            files.add(path)
    return changes, files


def in_order(paths):
    """The paths in the order in which the program comes to them: a directory, and what is in it from the last name to the first."""
    below = {}
    for path in paths:
        if path:
            below.setdefault(path.rpartition('/')[0], []).append(path)
    left = ['']
    while left:
        path = left.pop()
        yield path
        left += sorted(below.get(path, []), key=lambda p: p.encode())


def lines_of(repo, dump):
    url, places = f'file://{repo}', texts_of(dump)
    last = int(run('svnlook', 'youngest', repo))
    said = [said_of(url, rev) for rev in range(last + 1)]
    for rev in range(last + 1):
        changes, files = changes_of(url, rev)
        for path in in_order(changes):
            yield f"{rev} {path or '.'} {changes[path]} {said[changes[path]]}\n"
            if path in files:
                text = run('svnlook', 'cat', '-r', str(rev), repo, path)
                place = places.get(hashlib.sha1(text).hexdigest())
                if place:
                    yield f'  {place[0]} {place[1]} {hashlib.md5(text).hexdigest()}\n'


class History:
    """A repository that is committed to by svnmucc; what is at each path of each revision is kept here."""

    def __init__(self, room):
        self.room, self.repo, self.count = room, f'{room}/repo', 0
        self.url = f'file://{self.repo}'
        run('svnadmin', 'create', self.repo)
        hook = f'{self.repo}/hooks/pre-revprop-change'
        open(hook, 'w').write('#!/bin/sh\n')
        os.chmod(hook, 0o755)
        self.trees = [{'': 'dir'}]

    def source(self, text):
        self.count += 1
        path = f'{self.room}/text{self.count}'
        open(path, 'w').write(text)
        return path

    def commit(self, user, *words):
        words = [w() if callable(w) else w for w in words]
        run('svnmucc', '-U', self.url, '-m', 'log', '--username', user, '--non-interactive', *words)

    def text(self, text):
        return lambda: self.source(text)

    def dump(self):
        return run('svnadmin', 'dump', '-q', self.repo)


def small(room):
    """Each kind of copy: of a directory, of a copy, with a change inside, over another, of one that was removed; and a revision that changes nothing."""
    h = History(room)
    t = h.text
    h.commit('ann', 'mkdir', 'trunk', 'put', t('one\n'), 'trunk/f', 'mkdir', 'trunk/d', 'put', t('two\n'), 'trunk/d/g', 'put', t(''), 'trunk/d/e')
    h.commit('bob', 'cp', '1', 'trunk', 'b1')
    h.commit('ann', 'put', t('three\n'), 'b1/d/g')
    h.commit('eve', 'cp', '3', 'b1', 'b2', 'put', t('four\n'), 'b2/f')
    h.commit('ann', 'propset', 'p', 'v', '.')
    h.commit('bob', 'rm', 'b1/d', 'cp', '1', 'trunk/d', 'b1/d')
    h.commit('bob', 'rm', 'b1')
    h.commit('eve', 'mkdir', 'b1', 'put', t('one\n'), 'b1/f')
    h.commit('ann', 'cp', '6', 'b1', 'b3', 'cp', '4', 'b2/d/g', 'b3/h')
    run('svn', 'propdel', '-q', '--revprop', '-r', '5', 'svn:author', h.url)
    run('svn', 'propdel', '-q', '--revprop', '-r', '8', 'svn:date', h.url)
    # a commit of no change, which svn itself doesn't make
    dump = h.dump() + b'Revision-number: 10\nProp-content-length: 56\nContent-length: 56\n\n' \
        b'K 8\nsvn:date\nV 27\n2024-02-29T23:59:59.999999Z\nPROPS-END\n\n'
    run('svnadmin', 'load', '-q', h.repo, '-r', '10:10', input=dump)
    h.commit('ann', 'cp', '10', 'b3', 'b4', 'rm', 'b4/d/e', 'put', t('five\n'), 'b4/f')
    return h


def main(words):
    with tempfile.TemporaryDirectory() as room:
        if words == ['--make']:
            h = small(room)
            dump = h.dump()
            open(f'{CRATE}/stdin', 'wb').write(dump)
            before = open(f'{CRATE}/stdout').read().partition(f'\n{FIRST}')[0] + '\n'
            open(f'{CRATE}/stdout', 'w').writelines([before, *lines_of(h.repo, dump)])
        elif len(words) == 1:
            dump = open(words[0], 'rb').read()
            run('svnadmin', 'create', f'{room}/repo')
            run('svnadmin', 'load', '-q', f'{room}/repo', input=dump)
            sys.stdout.writelines(lines_of(f'{room}/repo', dump))
        else:
            sys.exit(__doc__)


main(sys.argv[1:])
