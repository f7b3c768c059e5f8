#!/bin/bash
# False working copies, which `svncopy mend` puts right: copies of a repository that was then restored from a backup and committed to again. The rows of the
# database, the pristine texts, files, modes and links are compared with those of a fresh checkout, and `svnaudit check` calls the copy true. Local changes
# elsewhere stay. Then the client works on: status, update, commit, revert, cleanup. Mends that were cut off by a signal at each rename, removal and new
# directory are completed by `svncopy resume`, and by `svn cleanup`. What is in the way is refused, and the copy stays as it is.
#
# It needs Debian's packages `subversion`, `sqlite3`, `strace` and `python3-subversion`, python3, and `svncopy` and `svnaudit` as `tools/prove svncopy svnaudit`
# builds them, or the programs that the variables SVNCOPY and SVNAUDIT name; without the latter nothing is audited. RANDOM_MENDS says how many copies are mended
# at random, by default 60. It works in a folder of its own, which goes at the end, and is no part of the gate. The last line counts what differs.
. "$(dirname "${BASH_SOURCE[0]}")/room.sh"
needs sqlite3 python3 strace svnrdump
needs_built svncopy
: "${SVNAUDIT:=$top/crates/svnaudit/out/svnaudit}"
[ -x "$SVNAUDIT" ] || echo "    (there is no svnaudit: nothing is audited)"
url=file://$room/repo

# wrongly WHAT..: counts something that is wrong, and says it
wrongly() { wrong=$((wrong + 1)); echo "$@"; }

# begin: the repository at its second revision, of which there is a backup, and a copy
begin() {
    rm -rf repo backup copy work
    svnadmin create repo
    svn -q checkout "$url" work
    mkdir -p work/d/e work/gone
    printf 'first\n' >work/f
    printf 'second\n' >work/d/g
    printf 'third\n' >work/d/e/h
    printf 'kept\n' >work/kept
    printf 'more\n' >work/d/kept
    printf '$Id$\n' >work/id
    (cd work && svn -q add f d gone kept id && svn -q propset svn:keywords Id id && svn -q commit -m one && svn -q update)
    printf 'second, changed\n' >work/d/g
    (cd work && svn -q commit -m two && svn -q update)
    svnadmin -q hotcopy repo backup
}

# lose: what was committed since is in the copy, and then lost
lose() {
    svn -q commit -m lost work && svn -q update work && svn -q checkout "$url" copy && rm -rf work repo && cp -a backup repo && svn -q checkout "$url" work
}

# again: commits what is in the work copy in place of what was lost, and dumps it
again() { svn -q commit -m again work && svnadmin dump -q repo >dump; }

# rows COPY: its lines without the last changes, which rows that stay as they are keep
rows() { "$here/rows.py" "$1" | sed -E '/^node /s/(, [^,]*){3}\]$/]/'; }

# wanted_copy [REV]: the lines of a fresh checkout
wanted_copy() {
    rm -rf fresh
    svn -q checkout "$url" -r "${1:-HEAD}" fresh && rows fresh
}

# changes COPY: the last changes of the nodes that were mended
changes() { (cd "$1" && sed -n 's/.*: would be mended: \(.*\): .*/\1/p' ../planned | while read -r path; do [ ! -e "$path" ] || svn info "$path" | grep -E '^(Path|Last)'; done); }

# got_copy COPY: the lines of a copy, without texts that no node has
got_copy() {
    rm -rf vacuumed && cp -a "$1" vacuumed && svn cleanup --vacuum-pristines vacuumed && rows vacuumed
}

# audited COPY LINE: what svnaudit says
audited() {
    [ -x "$SVNAUDIT" ] || return
    "$SVNAUDIT" check dump "$1" >got 2>&1
    grep -q ": $2" got || wrongly "$1 ISN'T $2: $(head -3 got)"
    compared=$((compared + 1))
}

# mends WHAT COPY: it is mended, and then a fresh checkout's
mends() {
    audited "$2" untrue
    "$SVNCOPY" mend dump "$2" --dry-run >planned
    "$SVNCOPY" mend dump "$2" >line 2>&1 || wrongly "$1: REFUSED: $(cat line)"
    grep -qE "^$2: mended: [0-9]+ paths?\$" line || wrongly "$1: ANOTHER LINE: $(cat line)"
    wanted_copy >wanted
    got_copy "$2" >got
    same "$1" wanted got
    changes fresh >wanted
    changes "$2" >got
    same "$1: last changes" wanted got
    audited "$2" true
    echo "$2: true: nothing to mend" >wanted
    "$SVNCOPY" mend dump "$2" >got 2>&1
    same "$1: again" wanted got
}

# the six kinds of falsehood: each function changes the work copy, first as it will be lost, then as it is
text_lost() { echo lost >work/f; echo '$Id$ lost' >work/id; }
text_again() { echo again >work/f; echo '$Id$ again' >work/id; }
properties_lost() { svn -q propset p lost work/f work/d; svn -q propset svn:executable yes work/d/g; }
properties_again() { svn -q propset p again work/f work/d; svn -q propset svn:needs-lock yes work/d/e/h; }
missing_lost() { echo lost >work/f; }
missing_again() { mkdir -p work/new/deep; echo new >work/new/deep/one; echo two >work/d/two; svn -q add work/new work/d/two; svn -q propset svn:executable yes work/d/two; ln -s two work/d/link; svn -q add work/d/link; }
extra_lost() { missing_again; }
extra_again() { echo again >work/f; }
kind_lost() { svn -q rm work/d/e; svn -q commit -m half work; svn -q update work; echo a file >work/d/e; svn -q add work/d/e; mkdir -p work/x/y; echo z >work/x/y/z; svn -q add work/x; }
kind_again() { echo a file >work/x; svn -q add work/x; svn -q commit -m half work; echo h >work/d/e/h; }
gone_lost() { mkdir -p work/gone/a/b; echo c >work/gone/a/b/c; echo l >work/gone/l; svn -q add work/gone/a work/gone/l; }
gone_again() { svn -q rm work/gone; }
kinds='text properties missing extra kind gone'

echo "== six kinds of false copies"
for kind in $kinds; do
    begin
    "${kind}_lost" && lose && "${kind}_again" && again || wrongly "$kind: THE COPY ISN'T MADE"
    cp -a copy other
    mends "$kind" copy
    # by deltas, off standard input
    cp -a other remote
    svnrdump dump -q "$url" | "$SVNCOPY" mend - remote >line 2>&1 || wrongly "$kind, by deltas: REFUSED: $(cat line)"
    wanted_copy >wanted
    got_copy remote >got
    same "$kind, by deltas" wanted got
    rm -rf remote
    # with local changes elsewhere
    cp -a other copy2 && mv copy2 mine
    echo edited >>mine/kept
    svn -q propset local yes mine/d/kept
    echo added >mine/added && svn -q add mine/added
    echo unversioned >mine/unversioned
    svn -q changelist cl mine/kept
    svn status mine >wanted
    "$SVNCOPY" mend dump mine >line 2>&1 || wrongly "$kind, with local changes: REFUSED: $(cat line)"
    svn status mine >got
    same "$kind: local changes" wanted got
    audited mine true
    svn -q changelist --remove -R mine && svn -q revert -R mine && rm mine/added mine/unversioned
    wanted_copy >wanted
    got_copy mine >got
    same "$kind, with local changes" wanted got
    rm -rf other mine
done

echo "== ${RANDOM_MENDS:=60} copies at random, of histories at random"
RANDOM=3
for n in $(seq "$RANDOM_MENDS"); do
    rm -rf repo backup copy
    "$here/random_history.py" "$n" 5 repo >/dev/null
    svnadmin -q hotcopy repo backup
    "$here/false_history.py" "$((n + 1000))" $((RANDOM % 4 + 1)) repo
    last=$(svnlook youngest repo)
    svn -q checkout "$url" copy
    # some of them of several revisions
    mixed=
    if [ $((n % 3)) = 0 ]; then
        mixed=$((RANDOM % last + 1))
        path=$(svnlook tree --full-paths -r "$mixed" repo | LC_ALL=C sort | sed -n "$((RANDOM % 5 + 2))p" | sed 's|/$||; s|^/||')
        [ -e "copy/$path" ] && svn -q update -r "$mixed" "copy/$path" 2>/dev/null || mixed=
    fi
    rm -rf repo && cp -a backup repo
    "$here/false_history.py" "$((n + 2000))" 6 repo
    while [ "$(svnlook youngest repo)" -lt "$last" ]; do "$here/false_history.py" "$((n + 3000))" 1 repo; done
    svnadmin dump -q repo >dump
    "$SVNCOPY" mend dump copy >line 2>&1 || { wrongly "random $n: REFUSED: $(cat line)"; continue; }
    audited copy true
    svn status copy >got
    : >wanted
    same "random $n: svn status" wanted got
    if [ -z "$mixed" ]; then
        wanted_copy "$last" >wanted
        got_copy copy >got
        same "random $n: $(cat line)" wanted got
    fi
    svn -q update copy && svn cleanup copy || wrongly "random $n: THE CLIENT DOESN'T GO ON"
    wanted_copy >wanted
    got_copy copy >got
    same "random $n: updated" wanted got
done

echo "== the client works on"
begin
kind_lost && lose && kind_again && again || wrongly "THE COPY ISN'T MADE"
"$SVNCOPY" mend dump copy >/dev/null || wrongly "REFUSED"
work_on() {
    echo mine >>copy/f
    [ "$(svn status copy)" = "M       copy/f" ] || return 1
    svn -q revert copy/f && [ -z "$(svn status copy)" ] || return 1
    svn -q update -r 2 copy && svn -q update copy || return 1
    echo more >>copy/d/e/h && svn -q commit -m more copy && svn -q update copy && svn cleanup --vacuum-pristines copy || return 1
    [ -z "$(svn status copy)" ] && sqlite3 copy/.svn/wc.db 'pragma integrity_check' | grep -qx ok
}
compared=$((compared + 1))
work_on 2>errors || { wrongly "THE CLIENT DOESN'T GO ON:"; sed 's/^/    /' errors; }

echo "== mends that were cut off"
# the program is killed as it does something for the n-th time, which strace does
cuts() {
    local call count n
    wanted_copy >whole
    rm -rf ours && cp -a copy ours
    strace -f -e trace=rename,unlink,rmdir,mkdir,symlink -o trace "$SVNCOPY" mend dump ours >/dev/null
    got_copy ours >got
    same "$1: not cut off" whole got
    for call in rename unlink rmdir mkdir symlink; do
        count=$(grep -c " $call(" trace)
        for n in $(seq "$count"); do
            rm -rf ours cleaned
            cp -a copy ours
            (strace -f -e trace=$call -e inject=$call:signal=SIGKILL:when="$n" -o /dev/null "$SVNCOPY" mend dump ours; true) >/dev/null 2>&1
            cp -a ours cleaned
            stops=$((stops + 1))
            [ "$(sqlite3 ours/.svn/wc.db 'select count(*) from wc_lock')" = 0 ] || left=$((left + 1))
            "$SVNCOPY" resume ours >line 2>&1 || wrongly "$1, $call $n: RESUME: $(cat line)"
            "$SVNCOPY" mend dump ours >line 2>&1 || wrongly "$1, $call $n: MEND: $(cat line)"
            got_copy ours >got
            same "$1, cut off at $call $n, completed by resume" whole got
            svn cleanup cleaned 2>errors || { wrongly "$1, $call $n: SVN CLEANUP:"; sed 's/^/    /' errors; }
            "$SVNCOPY" mend dump cleaned >line 2>&1 || wrongly "$1, $call $n: MEND AFTER CLEANUP: $(cat line)"
            got_copy cleaned >got
            same "$1, cut off at $call $n, completed by svn cleanup" whole got
        done
    done
}
stops=0 left=0
for kind in text kind missing extra; do
    begin
    "${kind}_lost" && lose && "${kind}_again" && again || wrongly "$kind: THE COPY ISN'T MADE"
    cuts "$kind"
done
echo "    $stops stops, and $left of them had work left"
[ $left != 0 ] || wrongly "NO WORK WAS LEFT"

echo "== refusals"
# what a folder has, with its times
all_of() { (cd "$1" && find . -printf '%P %y %m %s %T@ %l\n' | LC_ALL=C sort; find . -type f | LC_ALL=C sort | xargs -d '\n' sha1sum); }
# refuses WHAT LINE EDIT..: a fresh false copy, in which a command changes something, is refused with this line, and stays as it is
refuses() {
    local what=$1 line=$2
    shift 2
    rm -rf ours && cp -a copy ours
    (cd ours && eval "$@") >/dev/null 2>errors || wrongly "$what: $(cat errors)"
    all_of ours >before
    refused "$what" "svncopy: ours: $line" "$SVNCOPY" mend dump ours
    refused "$what, dry" "svncopy: ours: $line" "$SVNCOPY" mend dump ours --dry-run
    all_of ours >after
    same "$what: the copy" before after
}
begin
text_lost && mkdir work/x && echo y >work/x/y && svn -q add work/x && svn -q rm work/gone && svn -q propset p lost work/d/e && lose || wrongly "THE COPY ISN'T MADE"
text_again && echo x >work/x && mkdir -p work/new/deep && echo z >work/new/deep/z && svn -q add work/x work/new && svn -q propset p again work/d/e && again || wrongly "THE COPY ISN'T MADE"
refuses 'an edited file' 'f: changed on disk' 'echo mine >>f'
refuses 'an edited file with keywords' 'id: changed on disk' 'echo mine >>id'
refuses 'a file of its own' 'x/mine: something is in the way' 'echo mine >x/mine'
refuses 'a file in the way' 'new: something is in the way' 'echo mine >new'
refuses 'a folder in the way' 'new: something is in the way' 'mkdir new'
refuses 'a link in place of a folder' 'x: not a directory on disk' 'mv x y; ln -s y x'
refuses 'a folder in place of a file' 'f: changed on disk' 'rm f; mkdir f'
refuses 'a local property' 'f: a local change' 'svn propset mine yes f'
refuses 'a local property of a folder' 'd/e: a local change' 'svn propset mine yes d/e'
refuses 'a deletion' 'f: a local change' 'svn rm f'
refuses 'an addition' 'new: a local change' 'mkdir new; svn add new'
refuses 'an addition below what goes' 'x/mine: a local change' 'echo mine >x/mine; svn add x/mine'
refuses 'a deletion above' 'x: a local change' 'svn rm x'
refuses 'a move' 'f: a local change' 'svn mv f moved'
refuses 'a changelist' 'f: a local change' 'svn changelist mine f'
refuses 'a depth' 'd: a directory of another depth than infinity' 'svn update --set-depth files d'
refuses 'an excluded node' 'd/e: an excluded node' 'svn update --set-depth exclude d/e'
refuses 'a journal' 'the database has a journal: a client is at work, or was cut off, and `svn cleanup` comes first' 'echo begun >.svn/wc.db-journal'
refuses 'a lock of a client' 'locked, or with unfinished work of a client: run `svn cleanup`' "sqlite3 .svn/wc.db \"insert into wc_lock values (1, '', -1)\""
# a client that is about to write: SQLite's lock, with no journal yet
locks() {
    python3 -c 'import sqlite3, time
database = sqlite3.connect("ours/.svn/wc.db", isolation_level=None)
database.execute("begin immediate")
open("held", "w").close()
time.sleep(60)' &
    holder=$!
    while [ ! -e held ]; do sleep 0.1; done
}
rm -rf ours && cp -a copy ours && locks
all_of ours >before
refused 'a client about to write' 'svncopy: ours: the working copy is in use' "$SVNCOPY" mend dump ours
all_of ours >after
same 'a client about to write: the copy' before after
kill "$holder" && rm held
refuses 'work of a client' 'locked, or with unfinished work of a client: run `svn cleanup`' "sqlite3 .svn/wc.db \"insert into work_queue values (NULL, '(x)')\""
refuses 'an unknown table' 'the database has a table that isn'"'"'t known' 'sqlite3 .svn/wc.db "create table mine (a)"'
refused 'no copy' "svncopy: repo: no working copy" "$SVNCOPY" mend dump repo
rm -rf other && svnadmin create other && svnadmin dump -q other >other.dump
refused 'another repository' "svncopy: copy: the working copy is of repository $(svnlook uuid repo), not of $(svnlook uuid other)" "$SVNCOPY" mend other.dump copy

echo "== what isn't in the way"
passes() {
    local what=$1
    shift
    rm -rf ours && cp -a copy ours
    (cd ours && eval "$@") >/dev/null 2>errors || wrongly "$what: $(cat errors)"
    "$SVNCOPY" mend dump ours >line 2>&1 || wrongly "$what: REFUSED: $(cat line)"
    audited ours true
}
passes 'the time of a file' 'touch f id x/y'
passes 'a missing file' 'rm f'
passes 'a missing folder' 'rm -r d'
passes 'a property above' 'svn propset mine yes . d'
passes 'an edit elsewhere' 'echo mine >>kept'
passes 'an addition elsewhere' 'echo mine >mine; svn add mine'
passes 'an unversioned file' 'echo mine >d/mine'

echo "== several copies, and what would be done"
paths=9
rm -rf a b c && cp -a copy a && cp -a copy b && cp -a copy c && echo mine >>b/f
"$SVNCOPY" mend - a b c <dump >got 2>errors
echo "status $?" >>got
printf 'a: mended: %d paths\nc: mended: %d paths\nstatus 2\n' "$paths" "$paths" >wanted
same 'several copies' wanted got
echo 'svncopy: b: f: changed on disk' >wanted
same 'several copies, the refusal' wanted errors
"$SVNCOPY" mend dump copy --dry-run >got 2>&1
cat >wanted <<'END'
copy: would be mended: d/e: recorded anew
copy: would be mended: f: written anew
copy: would be mended: gone: added
copy: would be mended: id: written anew
copy: would be mended: new: added
copy: would be mended: new/deep: added
copy: would be mended: new/deep/z: added
copy: would be mended: x: replaced
copy: would be mended: x/y: removed
END
same 'what would be done' wanted got
audited copy untrue
rm -rf copy/new && "$SVNCOPY" mend dump a --dry-run >got 2>&1
echo 'a: true: nothing to mend' >wanted
same 'what would be done of a true copy' wanted got
end
