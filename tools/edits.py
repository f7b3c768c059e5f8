"""The must-fail edits of the crates: what tools/gate and tools/more_edits share."""
import os
import re

from crates import TOP

# How rt says what became of an edit.
RESULT = re.compile(r"must-fail ([\w-]+)/([\w.-]+): (refused|BAD EDIT|NOT REFUSED|NOT TRIED)")


def edits_of(name, folder="must-fail"):
    """The files of a crate's edits in one of its two folders."""
    at = f"{TOP}/crates/{name}/{folder}"
    return [f"{at}/{it}" for it in sorted(os.listdir(at)) if it.endswith(".edit")] if os.path.isdir(at) else []


def fault_of(edit, crate):
    """Why an edit can't be applied to a crate, or nothing where it can."""
    texts, path, old = {}, "", ""
    with open(edit, encoding="utf-8") as file:
        lines = file.read().split("\n")
    for line in lines:
        key, _, value = line.partition(": ")
        if key == "file":
            path = value.strip()
        elif key == "old":
            old = value
        elif line.startswith("new:"):
            if path not in texts:
                if not os.path.isfile(f"{crate}/{path}"):
                    return f"there is no file {path}"
                with open(f"{crate}/{path}", encoding="utf-8") as file:
                    texts[path] = file.read()
            if not old or texts[path].count(old) != 1:
                return f"its text is in {path} {texts[path].count(old) if old else 0} times: {old.strip()}"
            texts[path] = texts[path].replace(old, value)
    return "" if texts else "it changes nothing"


def faults_of(edits):
    """The edits that can't be applied, each with why."""
    faults = [(it, fault_of(it, os.path.dirname(os.path.dirname(it)))) for it in edits]
    return [(it, why) for it, why in faults if why]


def name_of(edit):
    """The name of an edit's file with that of its crate."""
    return f"{os.path.basename(os.path.dirname(os.path.dirname(edit)))}/{os.path.basename(edit)}"
