"""Large scripts for svnup, in stages.

A workload is a function that yields (stage, base, times, lines): the stage's script is that of the stage `base` with these
lines after it, and what the lines cost is the difference between the two. `times` says how often the lines do what the stage is
named for.
"""
import collections
import math
import random

BRANCHING, FILES = 8, 8


def tree(files, top=""):
    """A bushy tree of that many files: the lines that make it, and the paths of its files."""
    lines, paths, open_directories = [], [], [top]
    for above in open_directories:
        for i in range(min(FILES, files - len(paths))):
            paths.append(f"{above}f{i}")
            lines.append(f"put {paths[-1]} text{len(paths)}")
        for i in range(BRANCHING):
            if len(open_directories) * FILES < files:
                open_directories.append(f"{above}d{i}/")
                lines.append(f"mkdir {above}d{i}")
    return lines, paths


def to_and_fro(times, end=""):
    """Updates to revisions 2 and 1 in turn."""
    return [f"update {1 + (i + 1) % 2}{end}" for i in range(times)]


def compared(times=8, late=False):
    """A checkout of revision 1, and what is done from there on."""
    yield "checkout", "commit again", times, ["checkout 1"] * times
    yield "copy", "commit again", 1, ["checkout 1"]
    yield "no change", "copy", times, ["update 1"] * times
    yield "update", "copy", times, to_and_fro(times)
    if late:
        yield "update, texts late", "copy", times, to_and_fro(times, " late")


def beside_updates(directory):
    """What else is done with that copy, and with a directory of it."""
    yield "drive", "copy", 4, ["drive 2"] * 4
    yield "report", "copy", 4, ["report"] * 4
    yield "place", "copy", 4, [f"place {directory} 2", f"place {directory} 1"] * 2
    yield "forget", "copy", 4, [f"forget {directory}", f"place {directory} 1"] * 4
    yield "show", "copy", 4, ["show"] * 4


def one_directory(files=50_000):
    """Fifty thousand files in one directory, all changed."""
    def put(text):
        return [f"put d/f{i:05} {text}{i:05}" for i in range(files)]
    yield "commit", None, 1, ["mkdir d", *put("a"), "commit"]
    yield "commit again", "commit", 1, [*put("b"), "commit"]
    yield from compared(late=True)
    yield from beside_updates("d")


def bushy(files=100_000, changed=10):
    """A hundred thousand files in a tree, ten changed."""
    lines, paths = tree(files)
    yield "commit", None, 1, [*lines, "commit"]
    yield "commit again", "commit", 1, [*(f"put {path} b" for path in random.Random(1).sample(paths, changed)), "commit"]
    yield from compared()
    yield from beside_updates("d0")


def deep(files=2_000, depth=60):
    """Two thousand files sixty directories down, one changed."""
    chain = ["/".join(["level"] * i) for i in range(1, depth + 1)]
    puts = [f"put {chain[-1]}/f{i} a" for i in range(files)]
    yield "commit", None, 1, [*(f"mkdir {path}" for path in chain), *puts, "commit"]
    yield "commit again", "commit", 1, [f"put {chain[-1]}/f7 b", "commit"]
    yield from compared(20)
    yield from beside_updates(chain[1])


def directories(count=20_000):
    """Twenty thousand directories of three files, one changed in each."""
    made = [line for i in range(count) for line in [f"mkdir d{i:05}", *(f"put d{i:05}/f{k} a" for k in range(3))]]
    yield "commit", None, 1, [*made, "commit"]
    yield "commit again", "commit", 1, [*(f"put d{i:05}/f1 b" for i in range(count)), "commit"]
    yield from compared(late=True)


def replaced(files=40_000):
    """A directory of forty thousand files, half of them go and as many come."""
    yield "commit", None, 1, [*(f"put f{i:05} a" for i in range(0, 2 * files, 2)), "commit"]
    gone = (f"remove f{i:05}" for i in range(0, 2 * files, 4))
    come = (f"put f{i:05} b" for i in range(1, 2 * files, 4))
    yield "commit again", "commit", 1, [*gone, *come, "commit"]
    yield from compared()


def texts(files=7, size=1 << 20):
    """Seven texts of a mebibyte, all changed."""
    def put(start):
        return [f"put f{i} {(f'{start}{i}-' * size)[:size]}" for i in range(files)]
    yield "commit", None, 1, [*put("a"), "commit"]
    yield "commit again", "commit", 1, [*put("b"), "commit"]
    yield from compared(20)
    yield "show", "copy", 5, ["show"] * 5


def middling_texts(files=900):
    """Nine hundred texts of 8,000 bytes, all changed."""
    yield from texts(files, 8_000)


def properties(files=2_000, count=40):
    """Two thousand files with forty properties, half of them changed."""
    lines = [line for i in range(files) for line in [f"put f{i} a", *(f"prop f{i} p:{k} value-{k}" for k in range(count))]]
    again = [f"prop f{i} p:{k} other" if k % 4 else f"unprop f{i} p:{k}" for i in range(files) for k in range(0, count, 2)]
    yield "commit", None, 1, [*lines, "commit"]
    yield "commit again", "commit", 1, [*again, "commit"]
    yield from compared()
    yield "show", "copy", 4, ["show"] * 4


def one_list(count=80_000):
    """One directory with eighty thousand properties, all changed."""
    yield "commit", None, 1, ["mkdir d", *(f"prop d p{k} a" for k in range(count)), "commit"]
    yield "commit again", "commit", 1, [*(f"prop d p{k} b" for k in range(count)), "commit"]
    yield from compared()


def come_and_go(files=50_000):
    """A tree of fifty thousand files, added and deleted again."""
    yield "commit", None, 1, [*tree(files)[0], "commit"]
    yield "copy", "commit", 1, ["checkout 0"]
    yield "add and delete", "copy", 8, [f"update {1 - i % 2}" for i in range(8)]


def many_revisions(files=20_000, commits=2_000, places=5_000):
    """Two thousand small commits, and a copy with a quarter of its files at any of them."""
    chance = random.Random(2)
    lines, paths = tree(files)
    yield "commit", None, 1, [*lines, "commit"]
    again = [line for i in range(commits) for line in [f"put {chance.choice(paths)} t{i}", "commit"]]
    yield "commit again", "commit", commits, again
    yield "copy", "commit again", 1, [f"checkout {commits}"]
    placed = [f"place {path} {chance.randint(1, commits)}" for path in chance.sample(paths, places)]
    yield "place", "copy", places, placed
    yield "report", "place", 4, ["report"] * 4
    yield "update", "place", 1, [f"update {commits}"]


def small_updates(times=10_000, files=20):
    """One small directory, updated to and fro; the same, each update stopped and made again."""
    yield "commit", None, 1, ["mkdir d", *(f"put d/f{i} a" for i in range(files)), "commit"]
    yield "commit again", "commit", 1, ["put d/f0 b", "put d/f1 b", "prop d p 1", "remove d/f2", "commit"]
    yield "copy", "commit again", 1, ["checkout 1"]
    yield "update", "copy", times, to_and_fro(times)
    stopped = [f"update {2 - i % 2}{end}" for i in range(times // 2) for end in (f" {i % 9}", "")]
    yield "stopped updates", "copy", times, stopped


def small_commits(files=100_000, commits=50_000):
    """Fifty thousand commits of one file in a tree of a hundred thousand."""
    chance = random.Random(3)
    lines, paths = tree(files)
    yield "commit", None, 1, [*lines, "commit"]
    yield "commit again", "commit", commits, [line for i in range(commits) for line in [f"put {chance.choice(paths)} b{i}", "commit"]]


def whole_copy(files=50_000, changed=100):
    """A copy of fifty thousand files, switched between a tree and a branch of it."""
    lines, paths = tree(files, "trunk/")
    chosen = random.Random(4).sample(paths, changed)
    yield "commit", None, 1, ["mkdir trunk", *lines, "commit"]
    branch = [f"put {path.replace('trunk', 'branch', 1)} b" for path in chosen]
    yield "branch", "commit", 1, ["copy 1 trunk branch", "commit", *branch, "commit"]
    yield "copy", "branch", 1, ["checkout 3 trunk"]
    yield "switch", "copy", 8, [f"switch-to {'trunk' if i % 2 else 'branch'} 3" for i in range(8)]


SYLLABLES = "ad ap arm bus cache clk core cpu dev dma drm er fs gpio gpu host hw i2c in io irq led lib mem mod net nt of on pci phy pin pm reg".split()


def real_name(chance, taken, typical):
    """A name that isn't taken, of so many bytes at the median and 60 at most."""
    size = min(60, max(2, round(chance.lognormvariate(math.log(typical), 0.47))))
    name = ""
    while len(name) < size or name in taken:
        name = (name + ("_" if name else "") + chance.choice(SYLLABLES))[:max(size, len(name) + 1)]
    taken.add(name)
    return name


def real_directories(count, top, chance):
    """So many directories, each after the one above it, most of them three or four names down, and a few with most of the others in them."""
    levels, taken = [[top]], {top: set()}
    for _ in range(count):
        depth = min(len(levels), chance.choices(range(1, 10), (4, 40, 75, 45, 20, 8, 4, 2, 1))[0])
        above = chance.choices(levels[depth - 1], [1 / (1 + i) ** 0.6 for i in range(len(levels[depth - 1]))])[0]
        path = f"{above}{real_name(chance, taken[above], 6)}/"
        taken[path] = set()
        levels[depth:depth + 1] = [[*(levels[depth] if depth < len(levels) else []), path]]
    return [path for level in levels for path in level], taken


def real_tree(files, top, chance):
    """A tree in the shape of a large source tree (Linux 6.1): a directory for 15 files, 2,541 in one at most, names of 11 bytes, and paths of 4
    names and 35 bytes, at the median. The lines that make it, and its files."""
    directories, taken = real_directories(files // 15, top, chance)
    sizes = [min(2_541, chance.lognormvariate(0, 1.25)) for _ in directories]
    lines, paths = [f"mkdir {path[:-1]}" for path in directories], []
    for path, size in zip(directories, sizes):
        for _ in range(round(size * files / sum(sizes))):
            paths.append(path + real_name(chance, taken[path], 11))
            lines.append(f"put {paths[-1]} text{len(paths)}")
    return lines, paths


def real_shape(files=78_579):
    """A tree of the size and the shape of Linux 6.1, a copy of its trunk, with changes of half of it, and of one in a hundred."""
    chance = random.Random(6)
    lines, paths = real_tree(files, "trunk/", chance)
    half, few = chance.sample(paths, len(paths) // 2), chance.sample(paths, len(paths) // 100)
    largest = collections.Counter(path.split("/")[1] for path in paths if path.count("/") > 1).most_common(1)[0][0]
    yield "commit", None, 1, [*lines, "commit"]
    branch = ["copy 3 trunk branch", "commit", *(f"put {path.replace('trunk', 'branch', 1)} d" for path in few), "commit"]
    changes = [*(f"put {path} b" for path in half), "commit", *(f"put {path} c" for path in few), "commit", *branch]
    yield "commit again", "commit", 1, changes
    yield "checkout", "commit again", 4, ["checkout 1 trunk"] * 4
    yield "copy", "commit again", 1, ["checkout 1 trunk"]
    yield "no change", "copy", 20, ["update 1"] * 20
    yield "half changed", "copy", 4, to_and_fro(4)
    yield "half changed, texts late", "copy", 4, to_and_fro(4, " late")
    yield "one in a hundred changed", "copy", 8, ["update 3", *(f"update {2 + i % 2}" for i in range(8))]
    yield "whole switch", "copy", 4, [f"switch-to {'branch' if i % 2 == 0 else 'trunk'} 5" for i in range(4)]
    switched = [f"switch {largest} branch/{largest} 5", f"switch {largest} trunk/{largest} 1"]
    yield "directory switched", "copy", 8, switched * 4
    yield "directory forgotten and switched again", "copy", 8, [f"forget {largest}", switched[0], f"forget {largest}", switched[1]] * 4
    mixed = [f"place {path[len('trunk/'):]} 2" for path in chance.sample(paths, len(paths) // 10)]
    yield "mixed copy", "copy", 1, mixed
    yield "mixed copy, report", "mixed copy", 4, ["report"] * 4
    yield "mixed copy, update", "mixed copy", 1, ["update 3"]
    yield "drive", "copy", 4, ["drive 2"] * 4
    yield "show", "copy", 4, ["show"] * 4


def reading(lines=50_000):
    """A hundred thousand lines that are read, and never committed."""
    yield "read", None, 1, [line for i in range(lines) for line in (f"mkdir d{i}", f"put d{i}/f text%20{i}")]


# the sizes at which instructions are counted, which takes fifty times as long
SMALLER = {
    "one_directory": {"files": 5_000},
    "bushy": {"files": 10_000},
    "deep": {"files": 300},
    "directories": {"count": 2_000},
    "replaced": {"files": 4_000},
    "texts": {"files": 3},
    "middling_texts": {"files": 100},
    "properties": {"files": 200},
    "one_list": {"count": 8_000},
    "come_and_go": {"files": 5_000},
    "many_revisions": {"files": 2_000, "commits": 200, "places": 500},
    "small_updates": {"times": 1_000},
    "small_commits": {"files": 10_000, "commits": 2_000},
    "whole_copy": {"files": 5_000, "changed": 10},
    "real_shape": {"files": 6_000},
    "reading": {"lines": 5_000},
}

WORKLOADS = {f.__name__: f for f in (one_directory, bushy, deep, directories, replaced, texts, middling_texts, properties, one_list,
                                     come_and_go, many_revisions, small_updates, small_commits, whole_copy, real_shape, reading)}
