"""Processes and the time that they used, by /proc: what tools/gate_cost and tools/timed share."""
import os

TICKS = os.sysconf("SC_CLK_TCK")


def read(path):
    try:
        with open(path, "rb") as file:
            return file.read().decode(errors="replace")
    except OSError:
        return ""


def children_of(pid):
    """The processes that this one started and hasn't waited for, whichever of its threads did."""
    try:
        threads = os.listdir(f"/proc/{pid}/task")
    except OSError:
        return []
    return [int(child) for thread in threads for child in read(f"/proc/{pid}/task/{thread}/children").split()]


def times_of(pid):
    """The seconds that a process has used, and those of its children that it has waited for."""
    fields = read(f"/proc/{pid}/stat").rpartition(")")[2].split()
    return (sum(map(int, fields[11:13])) / TICKS, sum(map(int, fields[13:15])) / TICKS) if fields else None
