"""The crates of this repository, by crates.txt, how they are proved, and the version: what the scripts of tools/ share."""
import os
import re
import shutil
import signal
import subprocess
import sys

TOP = os.path.dirname(os.path.dirname(os.path.abspath(__file__)))


def read_lines():
    """The lines of crates.txt by the names of their crates, and the names that each uses."""
    with open(f"{TOP}/crates.txt", encoding="utf-8") as file:
        lines = [line for line in file if ":" in line and not line.startswith("#")]
    rows = [(line.split(":")[0].split()[0], line) for line in lines]
    return {name: (line, line.split(":", 1)[1].split()) for name, line in rows}


def version():
    """The number that the programs print."""
    with open(f"{TOP}/crates/svn_version/src/lib.rt", encoding="utf-8") as file:
        return re.search(r'(?m)^pub const VERSION: &str = "(.*)";$', file.read())[1]


def with_below(lines, names):
    """These crates and those that they depend on, in the order of crates.txt."""
    found, left = set(), list(names)
    while left:
        name = left.pop()
        if name not in found:
            found.add(name)
            left += [it for it in lines[name][1] if it in lines]
    return [name for name in lines if name in found]


def copy_crate(name, to):
    """Copies a crate without its edits."""
    shutil.copytree(f"{TOP}/crates/{name}", to, ignore=shutil.ignore_patterns("out", "must-fail", "more-edits"))


def copy_repository(to, lines, names):
    """Makes a repository of these crates, without their edits."""
    with open(f"{to}/crates.txt", "w", encoding="utf-8") as file:
        file.writelines(lines[name][0] for name in names)
    shutil.copy(f"{TOP}/HANDLES", f"{to}/HANDLES")
    for name in names:
        copy_crate(name, f"{to}/crates/{name}")
    # (rt takes the folder with a .git for the top of a repository)
    os.mkdir(f"{to}/.git")


def processors():
    """How many processors there are to use: those that this process may run on, or fewer by the quota of its control group."""
    found = len(os.sched_getaffinity(0))
    try:
        with open("/sys/fs/cgroup/cpu.max", encoding="utf-8") as file:
            quota, period = file.read().split()
        return min(found, max(1, int(quota) // int(period)))
    except (OSError, ValueError):
        return found


def run_ci(top):
    """Runs `rt ci` (by kit.py) in a copy of the repository, passes on what it prints, and returns how many crates passed and failed."""
    passed, failed = 0, 1
    # (one job for each check: several jobs prove some things twice)
    environment = {"RT_JOBS": str(processors()), **os.environ}
    how = {"stdout": subprocess.PIPE, "stderr": subprocess.STDOUT, "text": True, "errors": "replace", "start_new_session": True}
    with subprocess.Popen([sys.executable, f"{TOP}/tools/kit.py", "ci"], cwd=top, env=environment, **how) as run:
        try:
            for line in run.stdout:
                print(line, end="", flush=True)
                found = re.fullmatch(r"(\d+) passed, (\d+) failed\n", line)
                if found:
                    passed, failed = int(found[1]), int(found[2])
        except BaseException:
            # (what was stopped leaves nothing running)
            os.killpg(run.pid, signal.SIGKILL)
            raise
    return passed, failed or int(run.returncode != 0)


def take_programs(top, names):
    """Takes the programs that `rt ci` proved and built in a copy of the repository, and returns where they are now."""
    taken = []
    for name in names:
        made = f"{top}/crates/{name}/out/{name}"
        if os.path.isfile(made):
            os.makedirs(f"{TOP}/crates/{name}/out", exist_ok=True)
            shutil.copy(made, f"{TOP}/crates/{name}/out/{name}")
            taken.append(f"crates/{name}/out/{name}")
    return taken
