"""The functions of a file of code: what tools/try_edits and tools/dearest share."""
import re

# What has braces that count for nothing: comments, texts and characters.
PLAIN = re.compile(r"""//[^\n]*|"(?:[^"\\]|\\.)*"|'(?:[^'\\\n]|\\.)'""", re.S)
# Where a function begins, or what has methods: those of a type have its name in their paths, and those of a trait paths that only the checker knows.
FUNCTION = re.compile(r"\bfn\s+(\w+)")
METHODS = re.compile(r"^(?:impl\b(?P<head>[^;{]*)|(?:pub(?:\([^)]*\))?\s+)?(?:unsafe\s+)?trait\b[^;{]*)(?=\{)", re.M)
# What a clause of a function's begins with, whose braces aren't the body's.
CLAUSE = re.compile(r"\b(?:requires|ensures|decreases)\b\s*\*?\s*\w*\s*$|\bghost\b\s+\w+\s*:\s*$")


def blank(text):
    """The text with nothing in the places of comments, texts and characters."""
    return PLAIN.sub(lambda found: re.sub(r"[^\n]", " ", found[0]), text)


def end_of_braces(text, begin):
    """Where the braces end that begin at a place."""
    depth = 0
    for found in re.finditer(r"[{}]", text[begin:]):
        depth += 1 if found[0] == "{" else -1
        if not depth:
            return begin + found.end()
    return len(text)


def end_of_function(text, begin):
    """Where a function ends that begins at a place: after its body, or at the `;` of one that has none."""
    depth = 0
    at = begin
    while at < len(text):
        if text[at] in "([":
            depth += 1
        elif text[at] in ")]":
            depth -= 1
        elif text[at] == ";" and not depth:
            return at
        elif text[at] == "{" and not depth:
            end = end_of_braces(text, at)
            if not CLAUSE.search(text[begin:at]):
                return end
            at = end
            continue
        at += 1
    return at


def type_of(head):
    """The type that an `impl` is of, or nothing where it is a trait's."""
    head = re.sub(r"^\s*<(?:[^<>]|<[^<>]*>)*>", "", head)
    found = re.match(r"\s*(\w+)\s*(?:<|where\b|$)", head)
    return found[1] if found and not re.search(r"\bfor\b", head) else ""


def functions_of(text):
    """The functions of a file that are in no other: where each begins and ends, its name, and the type that it is a method of. The type is None of one
    that is no method, and empty of a trait's."""
    text = blank(text)
    blocks = [(found.end(), end_of_braces(text, found.end()), type_of(found["head"] or "for")) for found in METHODS.finditer(text)]
    functions, end = [], 0
    for found in FUNCTION.finditer(text):
        if found.start() >= end:
            end = end_of_function(text, found.end())
            methods_of = next((it[2] for it in blocks if it[0] <= found.start() < it[1]), None)
            functions.append((found.start(), end, found[1], methods_of))
    return functions
