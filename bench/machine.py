"""The line above what is measured: the day, the commits and the machine, so that a table says of what it is."""
import datetime
import os
import platform
import subprocess

TOP = os.path.dirname(os.path.dirname(os.path.abspath(__file__)))


def printed(*words):
    """What a command prints, or nothing where it fails."""
    try:
        return subprocess.run(words, capture_output=True, text=True, check=True).stdout.strip()
    except (OSError, subprocess.CalledProcessError):
        return ""


def processor():
    with open("/proc/cpuinfo", encoding="utf-8") as file:
        return next((line.split(":")[1].strip() for line in file if line.startswith("model name")), platform.machine())


def commit(checkout):
    """The commit of a checkout, with a star if files of it are changed."""
    changed = printed("git", "-C", checkout, "status", "--porcelain", "--untracked-files=no")
    return (printed("git", "-C", checkout, "rev-parse", "--short", "HEAD") or "unknown") + ("*" if changed else "")


def line(checkouts=(TOP,), more=()):
    """`more` is what else a table depends on, as the file system."""
    memory = os.sysconf("SC_PAGE_SIZE") * os.sysconf("SC_PHYS_PAGES") / 2**30
    commits = " and ".join(dict.fromkeys(commit(it) for it in checkouts))
    what = [f"{os.cpu_count()} processors ({processor()})", f"{memory:.0f} GiB", f"Linux {platform.release()}", *more, f"load {os.getloadavg()[0]:.1f} before"]
    return f"{datetime.date.today().isoformat()}, commit {commits}: {', '.join(what)}"
