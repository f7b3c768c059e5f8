#!/usr/bin/env python3
"""Checks what the gate doesn't see of pages and comments, and prints FILE:LINE: and what is wrong there. Status 1 where anything is.

    tools/links.py [--comments]

- Words in backquotes: names of files with an ending of this repository must be there, and names with `_` or a capital inside must occur in
  code, definitions or proofs, or be Subversion's, which begin with `svn_`. So in pages and in the doc comments of code.
- Links to other pages, and to the headings in them.
- Pages: lines of at most 160 characters, rows of tables of at most 500; README.md at most 110 lines, a manual of a program at most 1,800 words, any
  other page at most 2,800; none of the wordings of NEVER and UNUSUAL, which have the usual one beside each. In comments of code those of NEVER, with
  --comments all.
- Crates: each of crates.txt is on docs/DESIGN.md. The tables of docs/DEFINITIONS*.md are as `tools/definitions --page`
  writes them.
- Examples: each is the same in examples/ and in crates/example_library/data, whose program sees no other folder. The blocks of docs/TUTORIAL.md,
  one after the other, are examples/tutorial.script and its output. A block of docs/EMBEDDING.md that begins with a file's name has lines of that file
  of crates/example_library, in their order; where the page says that it is the whole file, all of them.
- Promises: each function in a row of docs/PROVED*.md is in the files that the row names, and so is each clause in parentheses, unless it is a definition.
- Reasons: those of untrue paths on docs/AUDIT.md are those of crates/svn_audit/specs/Reasons.antt, to which contracts bind what is printed; each line
  of an untrue path, on any page, has one of them.
- The version: the first numbered entry of CHANGELOG.md is that of crates/svn_version/src/lib.rt.
"""
import argparse
import filecmp
import importlib.machinery
import importlib.util
import os
import re
import sys

TOP = os.path.dirname(os.path.dirname(os.path.abspath(__file__)))
ENDINGS = (".rt", ".antt", ".md", ".py", ".sh", ".script", ".output", ".edit")
COMMENT = re.compile(r"^\s*//[/!] ?(.*)$")
LONGEST_LINE, LONGEST_ROW, README_LINES, MANUAL_WORDS, PAGE_WORDS = 160, 500, 110, 1800, 2800
MANUALS = {"docs/SCRIPT.md", "docs/AUDIT.md", "docs/COPY.md", "docs/READ.md"}
# wordings of pages and of comments, each with what to write for it
NEVER = {
    r"wants? of memory|wanting memory|memory is wanting": "out of memory",
    r"hand(s|ed)? on\b": "re-exports; passes; returns",
    r"\bwho(ever)? only wants\b": "to try it",
    r"by halves": "a binary search",
    r"nobody's business|no business of": "unspecified",
    r"wrong bod(y|ies)": "mutant; must-fail edit",
}
# those of pages, and with --comments of comments too
UNUSUAL = {
    r"growths? (was|is|are|were) refused": "an allocation failed",
    r"\b(is|are|was|were) told\b|\btells? of\b": "is reported; reports",
    r"stands? (at|under|above|below|beside|there|where|in|on)\b|standing (at|in)": "is at; is below; is",
    r"\bbehind\b": "after",
    r"\bbeneath\b": "below",
    r"\b(is|are) to (be|arrive|do|have)\b": "must",
    r"\bwho knows\b|^who (only|wants)": "if you know",
    r"\bof which\b|\bwhereof\b": "(two sentences)",
}
MARK = {r"TODO-LEAD": "(what is missing)"}
# names of Subversion's that don't begin with svn_: a constant, and a column of wc.db
SUBVERSIONS = {"SVN_WC__VERSION", "file_external"}


def files():
    found = []
    for folder, inner, names in os.walk(TOP):
        inner[:] = [it for it in inner if it not in (".git", "out", "__pycache__")]
        found += [os.path.relpath(os.path.join(folder, it), TOP) for it in names + inner]
    return found


def read(page):
    with open(os.path.join(TOP, page), encoding="utf-8") as it:
        return it.read()


def text_of(page):
    """(number, line) of a page without its code, or of the doc comments of a file of code."""
    lines = list(enumerate(read(page).split("\n"), 1))
    if page.endswith(".rt"):
        return [(n, found[1]) for n, line in lines if (found := COMMENT.match(line))]
    text, in_code = [], False
    for n, line in lines:
        if line.startswith("```"):
            in_code = not in_code
        elif not in_code and not line.startswith("    "):
            text.append((n, line))
    return text


def words_of_code(known):
    words = {os.path.basename(it).split(".")[0] for it in known}
    for it in known:
        if it.endswith((".rt", ".antt")):
            words.update(re.findall(r"\w+", re.sub(r"(?m)^\s*//[/!].*$", "", read(it))))
    return words


def is_there(word, here, known):
    """A name is good as a path from the top or the page, or as the end of a path somewhere."""
    tail = "/" + word.strip("/")
    return "/out/" in word or any(("/" + it).endswith(tail) for it in known) or os.path.exists(os.path.join(TOP, here, word))


def names_in(word):
    """The names of code in what is between backquotes, but for names of files, those of Subversion among them."""
    if word.endswith(ENDINGS + (".h", ".c")) or "/" in word:
        return []
    names = re.findall(r"(?<![\w-])[A-Za-z]\w*(?![\w-])", word)
    return [it for it in names if re.search(r"_|[a-z][A-Z]", it) and not it.startswith("svn_") and it not in SUBVERSIONS]


def anchors(page):
    """The names under which the headings of a page are linked to."""
    heads = [line.lstrip("# ").lower() for n, line in text_of(page) if line.startswith("#")]
    return {re.sub(r"[^\w -]", "", it).replace(" ", "-") for it in heads}


def look_at_names(page, known, words):
    here = os.path.dirname(page)
    for n, line in text_of(page):
        quoted = re.findall(r"`([^`]+)`", line)
        named = [it for it in quoted if re.fullmatch(r"[\w./-]+", it) and (it.endswith(ENDINGS) or it.startswith("crates/"))]
        for it in named:
            if not is_there(it, here, known):
                yield page, n, f"there is no {it}"
        for name in [name for it in quoted for name in names_in(it) if name not in words]:
            yield page, n, f"no code has the name {name}"
        for to, head in re.findall(r"\]\(([^)#\s]*)(?:#([^)\s]*))?\)", line):
            if ":" in to:
                continue
            if to and not os.path.exists(os.path.join(TOP, here, to)):
                yield page, n, f"there is no {to}"
            elif head and head not in anchors(os.path.normpath(os.path.join(here, to)) if to else page):
                yield page, n, f"{to or page} has no heading {head}"


def look_at_wording(page, lines, wordings):
    for n, line in lines:
        if (page, n) == ("docs/PERF.md", 1):
            continue  # that line stays as it is
        for wording, usual in wordings.items():
            if found := re.search(wording, re.sub(r"`[^`]*`", "", line)):
                yield page, n, f"'{found[0]}': {usual}"


def look_at_length(page):
    text = read(page)
    for n, line in enumerate(text.split("\n"), 1):
        if len(line) > (LONGEST_ROW if " | " in line or line.endswith(" |") else LONGEST_LINE):
            yield page, n, f"{len(line)} characters"
    if page == "docs/PERF.md" and not re.match(r"[0-9a-f]{40} is the last commit landed before .* began\.\n", text):
        yield page, 1, "isn't the line that names the commit before the work on speed"
    if page == "README.md" and text.count("\n") > README_LINES:
        yield page, 1, f"{text.count(chr(10))} lines, the most are {README_LINES}"
    words, most = len(text.split()), MANUAL_WORDS if page in MANUALS else PAGE_WORDS
    if words > most:
        yield page, 1, f"{words} words, the most are {most}"


def comments(page):
    mark = "//" if page.endswith(".rt") else "--"
    return [(n, line) for n, line in enumerate(read(page).split("\n"), 1) if line.lstrip().startswith(mark)]


def look_at_examples():
    here, there = (os.path.join(TOP, it) for it in ("examples", "crates/example_library/data"))
    names = {it for it in os.listdir(here) + os.listdir(there) if it.endswith((".script", ".output"))}
    same, _, _ = filecmp.cmpfiles(here, there, names, shallow=False)
    for it in names - {*same}:
        yield f"examples/{it}", 1, "isn't the same as in crates/example_library/data"
    page = read("docs/TUTORIAL.md")
    for kind in ("script", "output"):
        blocks = re.findall(rf"(?ms)^```{kind}\n(.*?)^```", page)
        if "".join(blocks) != read(f"examples/tutorial.{kind}"):
            yield "docs/TUTORIAL.md", 1, f"its blocks together aren't examples/tutorial.{kind}"


def stripped(text):
    """The lines of code without their indentation, blank ones left out."""
    return [line.strip() for line in text.split("\n") if line.strip()]


def look_at_code():
    page, inner = "docs/EMBEDDING.md", "crates/example_library/src"
    for found in re.finditer(r"(?ms)^```rust (\S+)( whole)?\n(.*?)^```", read(page)):
        name, is_whole, block = found.groups()
        n = read(page)[:found.start()].count("\n") + 1
        if not os.path.exists(os.path.join(TOP, inner, name)):
            yield page, n, f"there is no {inner}/{name}"
            continue
        lines, left = stripped(block), iter(stripped(read(f"{inner}/{name}")))
        lacking = [it for it in lines if it not in left]  # (each look goes on after the line that was found)
        if lacking:
            yield page, n, f"{inner}/{name} has no line `{lacking[0]}` there"
        elif is_whole and lines != stripped(read(f"{inner}/{name}")):
            yield page, n, f"isn't all of {inner}/{name}"


def pattern_of(term):
    """What a text of a definition may be: its literal parts, and some word for each other part."""
    parts = [] if term == "[]" else term.split(" ++ ")
    return "".join(re.escape(it[7:-1]) if it.startswith('codes "') else r"\S+" for it in parts)


def reasons():
    """A pattern for each reason of an untrue path."""
    definition = read("crates/svn_audit/specs/Reasons.antt")
    no_revision = re.search(r'codes "(the history has no r)"', definition)[1]
    yield re.escape(no_revision) + r"\d+"
    rests = dict(re.findall(r"(?m)^rest_of (\w+|\(.*?\)) = (.*)$", definition))
    for reason, there in re.findall(r"(?m)^in_place (\w+|\(.*?\)) = (.*)$", definition):
        if reason != "NoRevision":
            yield rf"r\d+ has {pattern_of(there)} at \S+{pattern_of(rests.get(reason, '[]'))}"


def look_at_reasons(pages):
    patterns, page = [*reasons()], "docs/AUDIT.md"
    table = re.search(r"(?ms)^Reason \| Meaning\n---\|---\n(.*?)\n\n", read(page))
    listed = [it for row in table[1].split("\n") for it in re.findall(r"`([^`]+)`", row.split(" | ")[0])]
    for it in listed:
        if not any(re.fullmatch(pattern, it) for pattern in patterns):
            yield page, 1, f"no reason is printed as `{it}`"
    for pattern in patterns:
        if not any(re.fullmatch(pattern, it) for it in listed):
            yield page, 1, f"its table lacks the reason {pattern}"
    for page in pages:
        for n, line in enumerate(read(page).split("\n"), 1):
            for reason in re.findall(r": untrue: \S+: ([^`]*)", line):
                if not any(re.fullmatch(pattern, reason.strip()) for pattern in patterns):
                    yield page, n, f"no reason is printed as `{reason}`"


def promises(known):
    """(page, number, contract, code) of each row of docs/PROVED*.md that names files of code."""
    code = {it: read(it) for it in known if it.startswith("crates/") and it.endswith(".rt")}
    for page in (it for it in known if re.fullmatch(r"docs/PROVED\w*\.md", it)):
        for n, line in enumerate(read(page).split("\n"), 1):
            promise, contract, where = (line.split(" | ") + ["", ""])[:3]
            named = tuple("/" + it for it in re.findall(r"`([\w/]+\.rt)`", where))
            text = "".join(code[it] for it in code if named and it.endswith(named))
            if text:
                yield page, n, contract, text


def clauses_of(contract, defined):
    """The names in parentheses that aren't definitions, each with whether a definition comes before it, whose field it may be."""
    for group in re.findall(r"\(([^)]*)\)", contract):
        names = re.findall(r"`(\w+)`", group)
        yield from ((it, any(before in defined for before in names[:at])) for at, it in enumerate(names) if it not in defined)


def look_at_promises(known):
    specs = "".join(read(it) for it in known if it.startswith("crates/") and "/specs/" in it and it.endswith(".antt"))
    defined = {*re.findall(r"(?m)^(?:abbrev |unfoldable )?pub (?:record |data )?(\w+)", specs), *re.findall(r"pub (?:record|data) (\w+)", specs)}
    fields = set(re.findall(r"(?m)^ +(?:\w+ )*pub (\w+)", specs))
    for page, n, contract, text in promises(known):
        for clause, may_be_field in clauses_of(contract, defined):
            if not (may_be_field and clause in fields) and not re.search(rf"(ensures|ghost) {clause}\b", text):
                yield page, n, f"no clause {clause} is there"
        for call in re.findall(r"`(?:\w+::)?(\w+)`", re.sub(r"\([^)]*\)", "", contract)):
            if not re.search(rf"\b{call}\b", text):
                yield page, n, f"no {call} is there"


def look_at_version():
    is_, page = re.search(r'(?m)^pub const VERSION: &str = "(.*)";$', read("crates/svn_version/src/lib.rt")), "CHANGELOG.md"
    first = re.search(r"(?m)^## (\d\S*)", read(page))
    if not is_ or not first or is_[1] != first[1]:
        yield page, 1, "its first numbered entry isn't the version of crates/svn_version"


def look_at_map():
    page = read("docs/DESIGN.md")
    for n, line in enumerate(read("crates.txt").split("\n"), 1):
        name = line.split(":")[0].split(" ")[0]
        if name and not line.startswith("#") and f"`{name}`" not in page:
            yield "crates.txt", n, f"{name} isn't on docs/DESIGN.md"


def look_at_definitions():
    loader = importlib.machinery.SourceFileLoader("definitions", f"{TOP}/tools/definitions")
    definitions = importlib.util.module_from_spec(importlib.util.spec_from_loader("definitions", loader))
    loader.exec_module(definitions)
    for path in definitions.PAGES:
        page = os.path.relpath(path, TOP)
        for n, (is_, made) in enumerate(zip(read(page).split("\n"), definitions.page(path).split("\n")), 1):
            if is_ != made:
                yield page, n, "a definition's words changed: run tools/definitions --page"


def main(with_comments):
    known = files()
    words = words_of_code(known)
    pages = sorted(it for it in known if it.endswith(".md") and not it.startswith("drafts"))
    code = sorted(it for it in known if it.endswith((".rt", ".antt")) and it.startswith("crates"))
    found = [it for page in pages + code if page.endswith((".md", ".rt")) for it in look_at_names(page, known, words)]
    found += [it for page in pages for it in [*look_at_wording(page, text_of(page), {**NEVER, **UNUSUAL, **MARK}), *look_at_length(page)]]
    found += [*look_at_examples(), *look_at_code(), *look_at_promises(known), *look_at_reasons(pages), *look_at_version()]
    found += [*look_at_map(), *look_at_definitions()]
    wordings = {**NEVER, **UNUSUAL} if with_comments else NEVER
    found += [it for page in code for it in look_at_wording(page, comments(page), wordings)]
    print("\n".join(f"{page}:{n}: {what}" for page, n, what in sorted({*found})) or f"all is there, in {len(pages)} pages")
    return 1 if found else 0


if __name__ == "__main__":
    parser = argparse.ArgumentParser(description=__doc__, formatter_class=argparse.RawDescriptionHelpFormatter)
    parser.add_argument("--comments", action="store_true", help="look at the wording of comments of code too")
    sys.exit(main(parser.parse_args().comments))
