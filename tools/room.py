"""The memory that checks share: how much each takes, and that none begins beside others that leave too little for it."""
import contextlib
import os
import re
import threading

# What a check takes at most, in bytes: so much by itself, for each line of its crate, and for each line of those below. Of 45 libraries, programs and
# tests that were watched it was 0.7 to 3.6 GB, and 6 GB of svn_disk, none a tenth more than this; rt counts on nearly twice as much.
ALONE, OWN_LINE, LINE_BELOW = 1_200_000_000, 800_000, 30_000
# What was seen to take more than that.
MORE = {"svncopy": 5_500_000_000, "test_disk": 6_800_000_000}
# What the largest takes, where the crate isn't known.
LARGEST = 6_800_000_000
# How much of the memory that is free at first they may fill together.
FILLED = 0.9
# The limits of a control group, and what it holds.
GROUPS = [
    ("/sys/fs/cgroup/memory.max", "/sys/fs/cgroup/memory.current"),
    ("/sys/fs/cgroup/memory/memory.limit_in_bytes", "/sys/fs/cgroup/memory/memory.usage_in_bytes"),
]


def need(crate):
    """What a check of one of rt's crates takes at most, in bytes."""
    below = sum(it.count(rb"\n") for it in crate.below())
    return max(ALONE + OWN_LINE * crate.count(rb"\n") + LINE_BELOW * below, MORE.get(crate.name, 0))


def number_in(path, pattern):
    """The number in a file, None where there is none."""
    try:
        with open(path, encoding="utf-8") as file:
            return int(re.search(pattern, file.read())[1])
    except (OSError, TypeError):
        return None


def free():
    """The free memory in bytes, by the limit of the control group too."""
    found = [1024 * number_in("/proc/meminfo", r"MemAvailable:\s+(\d+)")]
    for limit, held in GROUPS:
        limit, held = number_in(limit, r"(\d+)"), number_in(held, r"(\d+)")
        if limit is not None and held is not None:
            found.append(limit - held)
    return min(found)


class Room:
    """The memory of checks that run side by side. Each waits for its turn, and then until the others leave enough; one that needs more than there is runs alone."""

    def __init__(self, most):
        self.most, self.taken, self.running = most, 0, 0
        self.change, self.turn = threading.Condition(), threading.Lock()

    def has(self, needs):
        """Whether a check that takes so much may begin now."""
        return not self.running or self.taken + needs <= self.most

    def take(self, needs):
        self.taken, self.running = self.taken + needs, self.running + 1

    def leave(self, needs):
        self.taken, self.running = self.taken - needs, self.running - 1

    @contextlib.contextmanager
    def beside(self, needs):
        """Waits until there is room for a check, and has it as long as that runs."""
        # (the one whose turn it is goes first, or a large one would wait for the last of the small ones)
        with self.turn, self.change:
            self.change.wait_for(lambda: self.has(needs))
            self.take(needs)
        try:
            yield
        finally:
            with self.change:
                self.leave(needs)
                self.change.notify_all()


def in_room(scheduler):
    """rt's scheduler of tasks, as `in_lanes`, with checks that wait until there is memory for them."""

    def held(room, needs, call):
        def run(given, jobs):
            with room.beside(needs):
                return call(given, jobs)

        return run

    def run_all(tasks):
        room = Room(int(FILLED * free()))
        return scheduler({key: (waits, lines, needs, held(room, needs, call)) for key, (waits, lines, needs, call) in tasks.items()})

    return run_all
