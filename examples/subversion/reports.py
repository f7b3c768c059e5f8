#!/usr/bin/env python3
"""Prints the last report that a client of Subversion sent to `svnserve`, in the lines of `svnaudit report`.

    reports.py SAID URL ROOT

SAID has the client's bytes, URL is that of the repository, and ROOT the path in it at which the copy's root is.
"""
import sys
from urllib.parse import unquote_to_bytes

from trees import path_word


def items(text):
    """The items of the protocol one after another: lists, words, numbers, and strings as bytes."""
    stack, at = [[]], 0
    while at < len(text):
        byte = text[at:at + 1]
        if byte in b" \n":
            at += 1
        elif byte == b"(":
            stack.append([])
            at += 1
        elif byte == b")":
            done = stack.pop()
            stack[-1].append(done)
            at += 1
        else:
            end = at
            while text[end:end + 1] not in (b" ", b"\n", b":", b""):
                end += 1
            if text[end:end + 1] == b":" and text[at:end].isdigit():
                length = int(text[at:end])
                stack[-1].append(text[end + 1:end + 1 + length])
                at = end + 1 + length
            else:
                stack[-1].append(text[at:end].decode())
                at = end
    return stack[0]


def main(words):
    if len(words) != 3:
        sys.exit(__doc__.strip())
    said, url, root = words
    lines = []
    with open(said, "rb") as file:
        calls = items(file.read())
    for call in calls:
        if not isinstance(call, list) or len(call) != 2 or not isinstance(call[1], list):
            continue
        verb, given = call
        if verb in ("update", "switch"):
            lines = []
        elif verb == "set-path":
            # an empty path is the root
            lines.append(f"set {path_word(given[0])} {given[1]}" + (" start_empty" if given[2] == "true" else ""))
        elif verb == "link-path":
            where = unquote_to_bytes(given[1])[len(unquote_to_bytes(url)):].strip(b"/")
            lines.append(f"link {path_word(given[0])} {path_word(where)} {given[2]}" + (" start_empty" if given[3] == "true" else ""))
        elif verb == "delete-path":
            lines.append(f"delete {path_word(given[0])}")
    if root:
        print("root", path_word(root.encode()))
    for line in lines:
        print(line)


if __name__ == "__main__":
    main(sys.argv[1:])
