# What the scripts beside this one begin with: a folder of their own to work in, `room`, which goes at the end.
#
#   needs PROGRAM..         ends the script where one of these isn't installed
#   needs_built NAME..      the same of programs of this repository: crates/NAME/out/NAME, as `tools/prove NAME` builds it, or the program that the variable of
#                           its name in capitals names (SVNUP, SVNAUDIT); afterwards that variable names the program
#   same WHAT WANTED GOT    whether two files are the same; `compared` and `wrong` count
#   same_copies WHAT        whether two copies are the same, whose rows are in `wanted` (Subversion's) and `got`. Its update leaves the last change of a node as it was
#                           that was removed and copied back (or was copied as it is) since; ours is then what the repository says. A revision that touched a node
#                           and changed nothing isn't seen here. `stale` counts these
#   refused WHAT LINE COMMAND..   whether it is refused by that one line, with status 2, and nothing on standard output
#   end                     says how many there were, and ends the script, with status 1 where something is wrong
set -u
export LC_ALL=C.UTF-8
export SVN_I_LOVE_CORRUPTED_WORKING_COPIES_SO_DISABLE_SLEEP_FOR_TIMESTAMPS=yes
began=$PWD
here=$(cd "$(dirname "${BASH_SOURCE[0]}")" && pwd)
top=$(cd "$here/../.." && pwd)
compared=0 wrong=0 stale=0

needs() {
    local it
    for it in "$@"; do
        command -v "$it" >/dev/null || { echo "this needs the program $it (Debian's packages are subversion, sqlite3 and python3)" >&2; exit 2; }
    done
}

needs_built() {
    local name variable
    for name in "$@"; do
        variable=${name^^}
        printf -v "$variable" %s "$(cd "$began" && realpath -m "${!variable:-$top/crates/$name/out/$name}")"
        [ -x "${!variable}" ] || { echo "there is no program ${!variable}: run 'tools/prove $name' first, or name it in $variable" >&2; exit 2; }
    done
}

same() {
    compared=$((compared + 1))
    cmp -s "$2" "$3" && return
    wrong=$((wrong + 1))
    echo "$1 DIFFERS:"
    diff "$2" "$3" | head -6 | sed 's/^/    /'
}

same_copies() {
    if ! cmp -s wanted got && "$here/stale_changes.py" repo wanted got; then
        compared=$((compared + 1)) stale=$((stale + 1))
    else
        same "$1" wanted got
    fi
}

refused() {
    local what=$1 line=$2 status
    shift 2
    "$@" >out 2>got
    status=$?
    printf '%s\n' "$line" >wanted
    same "$what" wanted got
    [ $status = 2 ] && [ ! -s out ] || { wrong=$((wrong + 1)); echo "$what: STATUS $status, or something is printed"; }
}

end() { echo "$compared compared, $wrong wrong"; exit $((wrong != 0)); }

needs svn svnadmin
room=$(mktemp -d)
trap 'rm -rf "$room"' EXIT
cd "$room" || exit 2
echo "== Subversion $(svn --version -q)"
