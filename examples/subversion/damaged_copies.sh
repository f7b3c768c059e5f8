#!/bin/bash
# Damaged working copies: whatever the bytes of the database and of the pristine texts are, `svnaudit check` says of the copy that it is true or untrue, or
# refuses it by one line; it ends within its time, and changes nothing. So do its other commands. Where the copy changes while it is read, it is refused. And
# each of its allocations refused: it prints what it prints otherwise, or that it is out of memory.
#
# It needs Debian's packages `subversion` and `sqlite3`, python3, for the allocations a C compiler, and `svnaudit` as `tools/prove svnaudit` builds
# it: crates/svnaudit/out/svnaudit, or the program that the variable SVNAUDIT names. EVERY=N takes each N-th damage alone (default 1), for a slow
# build; CHANGES says how many bytes are changed (default 3000). It works in a folder of its own, which goes at the end, and is no part of the gate.
# The last line counts what is wrong.
. "$(dirname "${BASH_SOURCE[0]}")/room.sh"
needs sqlite3 python3
needs_built svnaudit

# a copy whose table of nodes has several pages, with a property that needs overflow pages, and one that is small
svnadmin create repo
url=file://$room/repo
svn -q checkout "$url" work
for it in 1 2 3 4; do
    mkdir "work/d$it"
    for name in $(seq 8); do echo "$it $name" >"work/d$it/a file of some name $name"; done
done
svn -q add work/d?
python3 -c 'print("v" * 20000)' >value
svn -q propset long -F value work/d1
svn -q propset short 'a value' work/d2 "work/d3/a file of some name 5"
svn -q commit -m files work
svn -q mkdir -m small "$url/small" "$url/small/d"
echo one >value; svnmucc -m put -U "$url" put value small/one propset p v small/d >/dev/null
svn -q checkout "$url" copy
svn -q checkout "$url/small" small
svnadmin dump -q repo >dump
"$SVNAUDIT" check dump copy >said || { echo "the copy as it was made isn't true" >&2; exit 1; }
sed 's/^/    /' said
"$here/damage.py" "$SVNAUDIT" "${EVERY:-1}" "${CHANGES:-3000}"
