#!/usr/bin/env python3
"""Prints what Subversion itself has in a revision, in the lines of `svnaudit show`.

    trees.py REPOSITORY REV [PATH] [--whole | --md5] [--without PATH]

REPOSITORY is the folder of a repository. Paths and kinds come from `svn ls -R`, properties from `svn proplist -R`, and texts from `svnlook cat`, which
prints them as they are (`svn cat` would translate keywords). Each text is printed as its SHA-1 checksum, with --md5 as its MD5 checksum, or with --whole
as it is. With --without nothing is printed of what is at that path and below.
"""
import base64
import hashlib
import subprocess
import sys
from concurrent.futures import ThreadPoolExecutor
from urllib.parse import quote, unquote_to_bytes
from xml.etree import ElementTree


def said(*words):
    """What a program prints, or None where it fails."""
    ran = subprocess.run(words, stdout=subprocess.PIPE, stderr=subprocess.PIPE, check=False)
    return ran.stdout if ran.returncode == 0 else None


def word(text):
    """Bytes as a word of a script."""
    plain = [chr(b) if 0x21 <= b <= 0x7E and b not in b'%"' else f"%{b:02X}" for b in text]
    return "".join(plain) or '""'


def path_word(path):
    return word(path) if path else "."


def joined(above, name):
    return above + b"/" + name if above and name else above or name


def value_of(prop):
    """The value of a property, which XML can't always hold as it is."""
    text = prop.text or ""
    if prop.get("encoding") == "base64":
        return base64.b64decode(text)
    return text.encode()


def properties(url, rev):
    """path -> {name: value}, of all that is at a URL and below."""
    found = {}
    listed = said("svn", "proplist", "-v", "-R", "--xml", "-r", rev, f"{url}@{rev}")
    for target in ElementTree.fromstring(listed or b"<properties/>"):
        path = unquote_to_bytes(target.get("path"))[len(unquote_to_bytes(url)):].strip(b"/")
        found[path] = {prop.get("name"): value_of(prop) for prop in target}
    return found


def kinds(url, rev):
    """path -> kind, of all that is at a URL and below, which is itself a directory."""
    listed = said("svn", "ls", "-R", "--xml", "-r", rev, f"{url}@{rev}")
    if listed is None:
        sys.exit(f"{url} isn't in revision {rev}")
    found = {b"": "dir"}
    for entry in ElementTree.fromstring(listed).iter("entry"):
        found[entry.find("name").text.encode()] = entry.get("kind")
    return found


def stand_in(text, by_md5):
    return "$md5$" + hashlib.md5(text).hexdigest() if by_md5 else "$sha1$" + hashlib.sha1(text).hexdigest()


def main(words):
    whole, by_md5 = "--whole" in words, "--md5" in words
    words = [it for it in words if it not in ("--whole", "--md5")]
    without = None
    if "--without" in words:
        at = words.index("--without")
        without = words[at + 1].encode()
        del words[at:at + 2]
    if len(words) not in (2, 3):
        sys.exit(__doc__.strip())
    repository, rev, root = words[0], words[1], words[2].encode() if len(words) > 2 else b""
    url = "file://" + quote(repository) + ("/" + quote(root) if root else "")
    props, nodes = properties(url, rev), kinds(url, rev)
    if without is not None:
        nodes = {path: kind for path, kind in nodes.items() if path != without and not path.startswith(without + b"/")}

    def lines(path):
        repos_path = joined(root, path)
        line = f"{path_word(path)} {nodes[path]} {rev} {path_word(repos_path)}"
        if nodes[path] == "file":
            text = said("svnlook", "cat", "-r", rev, repository, repos_path)
            line += " " + (word(text) if whole else stand_in(text, by_md5))
        return [line] + [f"{path_word(path)} prop {name} {word(value)}" for name, value in sorted(props.get(path, {}).items())]

    with ThreadPoolExecutor(2) as pool:
        for made in pool.map(lines, sorted(nodes, key=lambda path: path.split(b"/") if path else [])):
            print("\n".join(made))


if __name__ == "__main__":
    main(sys.argv[1:])
