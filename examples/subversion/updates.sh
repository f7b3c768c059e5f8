#!/bin/bash
# Working copies that `svncopy update` and `svncopy switch` bring to a revision, beside the same copies brought there by `svn update` and `svn switch`: the rows
# of the database, the pristine texts, files, modes and links, and the lines that are printed. Then the client goes on: status, update, cleanup. Local changes
# that nothing of the update touches stay, and others are refused. Updates that were cut off by a signal at each rename, removal and new directory are completed
# by `svncopy resume`, and by `svn cleanup`. Those that stop at a limit leave copies that are true, and that both programs complete.
#
# It needs Debian's packages `subversion`, `sqlite3`, `strace` and `python3-subversion`, python3, and `svncopy` and `svnaudit` as `tools/prove svncopy svnaudit`
# builds them, or the programs that the variables SVNCOPY and SVNAUDIT name; without the latter `svncopy mend --dry-run` audits. RANDOM_UPDATES, or the word of the call, says
# how many copies are made at random, by default 60, and CUT_UPDATES how many of them are cut off everywhere, by default 2. It works in a folder of its own,
# which goes at the end, and is no part of the gate. The last line counts what differs.
. "$(dirname "${BASH_SOURCE[0]}")/room.sh"
. "$here/dump_history.sh"
needs sqlite3 python3 strace
needs_built svncopy
: "${SVNAUDIT:=$top/crates/svnaudit/out/svnaudit}"
[ -x "$SVNAUDIT" ] || echo "    (there is no svnaudit: copies are audited by svncopy mend --dry-run)"
RANDOM_UPDATES=${1:-${RANDOM_UPDATES:-60}}
: "${CUT_UPDATES:=2}"
url=file://$room/repo
export SVN_EDITOR=true

# wrongly WHAT..: counts something that is wrong, and says it
wrongly() { wrong=$((wrong + 1)); echo "$@"; }

# copy_rows COPY: what it has, without texts that no node has
copy_rows() {
    rm -rf vacuumed && cp -a "$1" vacuumed && svn cleanup --vacuum-pristines vacuumed 2>/dev/null
    "$here/rows.py" vacuumed
}

# all_of FOLDER: what it has, with its times
all_of() { (cd "$1" && find . -printf '%P %y %m %s %T@ %l\n' | LC_ALL=C sort; find . -type f | LC_ALL=C sort | xargs -d '\n' sha1sum); }

# is_true COPY: whether it is true of the dump, as svnaudit says, or else a mend that would change nothing
is_true() {
    if [ -x "$SVNAUDIT" ]; then
        "$SVNAUDIT" check dump "$1" >audit 2>&1
    else
        "$SVNCOPY" mend dump "$1" --dry-run >audit 2>&1 && grep -q 'true: nothing to mend' audit
    fi
}

# sorted_lines: the lines in one order, since Subversion's own is that of its storage
sorted_lines() { LC_ALL=C sort; }

# both WHAT WORDS..: a command of both programs on the copies `wc` in `theirs` and in `ours`: the same lines and copies
both() {
    local what=$1 command=$2
    shift 2
    (cd theirs && svn "$command" "$@" 2>&1 | sorted_lines) >wanted
    case $command in
    update) (cd ours && "$SVNCOPY" update ../dump "${words[@]}" 2>&1 | sorted_lines) >got ;;
    switch) (cd ours && "$SVNCOPY" switch ../dump "${words[@]}" 2>&1 | sorted_lines) >got ;;
    esac
    same "$what: the lines" wanted got
    copy_rows theirs/wc >wanted
    copy_rows ours/wc >got
    same_copies "$what: the copy"
    is_true ours/wc || wrongly "$what: OURS ISN'T TRUE: $(head -3 audit)"
}

# fresh REV [PATH]: the same checkout twice
fresh() {
    rm -rf theirs ours
    mkdir theirs ours
    svn -q checkout "$url${2:+/$2}@$1" -r "$1" theirs/wc
    cp -a theirs/wc ours/wc
}

# updates WHAT PATH REV and switches WHAT PATH TO REV
updates() { words=("$2" "$3"); both "$1" update -r "$3" "$2"; }
switches() { words=("$2" "^/$3" "$4"); both "$1" switch "^/$3@$4" -r "$4" "$2"; }

echo "== named updates and switches"
make_history repo || exit 1
svnadmin dump -q repo >dump
last=$(svnlook youngest repo)
for rev in 1 2 3 4 6 7 9 12 16 "$last"; do
    fresh 2
    updates "r2 to r$rev" wc "$rev"
    updates "r$rev back to r2" wc 2
done
fresh 2 trunk
updates 'a directory' wc/lib 3
updates 'a directory again' wc/lib 3
updates 'a file' wc/a.c 3
updates 'a file with a blank' 'wc/odd/a b' 3
updates 'a directory that goes' wc/lib 6
updates 'a directory that is gone' wc/lib 6
updates 'a directory that comes' wc/library 8
updates 'a directory that comes back' wc/lib 4
updates 'a file that goes' wc/empty 9
updates 'a file that becomes a directory' wc/a.c 9
updates 'all of it' wc 8
updates 'all of it, back' wc 2
fresh 4 trunk
switches 'a branch' wc branches/1.x 4
switches 'the same branch' wc branches/1.x 4
switches 'a branch, later' wc branches/1.x 8
switches 'back' wc trunk 4
switches 'a directory' wc/lib branches/1.x/lib 4
switches 'a file' wc/a.c branches/1.x/a.c 4
updates 'with switched paths' wc 5
updates 'a switched directory' wc/lib 4
switches 'back, with switched paths' wc trunk 3
switches 'a directory, back' wc/lib trunk/lib 3

echo "== $RANDOM_UPDATES copies at random, of histories at random"
stricter=0 named=0 refused=0 updated=0
quoted() { python3 -c 'import sys, urllib.parse; print(urllib.parse.quote(sys.argv[1]))' "$1"; }
# has_switched COPY: whether it has switched paths
has_switched() { svn status "$1" | grep -q '^....S'; }

# refusal N WHAT: ours was refused, which is compared with what Subversion did
refusal() {
    local what=$1 line
    line=$(cat ourerrors)
    [ "$(wc -l <ourerrors)" = 1 ] || wrongly "$what: SEVERAL LINES: $line"
    refused=$((refused + 1))
    all_of old >before
    all_of ours/wc >after
    same "$what: refused, the copy ($line)" before after
    case $line in
    # a conflict there, or a merge
    *': a local change' | *': changed on disk' | *': something is in the way' | *': not a directory on disk')
        grep -qE '^([ ACDGU]{0,3}[CG]|Skipped|Summary|   C)' theirlines || stricter=$((stricter + 1)) ;;
    *'not what the repository has there'*)
        is_true old && wrongly "$what: THE OLD COPY IS TRUE: $line"
        named=$((named + 1)) ;;
    # (Subversion updates a root to another node, and says of a path that neither has that it is at the revision)
    *': another node is there in the target' | *': nothing is there in the target') [ $status != 0 ] || named=$((named + 1)) ;;
    *) [ $status != 0 ] || wrongly "$what: REFUSED: $line" ;;
    esac
}

# differs WHAT: the copies differ: that is one of the differences that docs/SUBVERSION.md names, of switched paths, if Subversion's is false, or becomes the same
# in its next update
differs() {
    local what=$1
    # (entries of a report below what became a file: it fails half way, and a second update mostly mends it)
    if [ $status != 0 ] && grep -q E160013 theirlines; then
        named=$((named + 1))
        svn cleanup theirs/wc
        svn -q update -r "$rev" theirs/wc 2>/dev/null || return
        copy_rows theirs/wc >wanted
        same_copies "$what: the copy, in another update"
        return
    fi
    if has_switched old && [ "$command" = update ]; then
        if ! is_true theirs/wc; then named=$((named + 1)); return; fi
        svn -q update -r "$rev" theirs/wc
        svn -q update -r "$rev" ours/wc
        copy_rows theirs/wc >wanted
        copy_rows ours/wc >got
        cmp -s wanted got && { named=$((named + 1)); return; }
    fi
    same_copies "$what: the copy"
    same "$what: the lines" theirlines ourlines
}

# at_random N: makes the copy, updates or switches it, and compares
at_random() {
    local n=$1 options= path=wc to what status
    [ $((n % 4)) = 1 ] && options="$options --killed"
    [ $((n % 3)) = 2 ] && options="$options --local"
    rm -rf theirs ours old && mkdir theirs ours
    (cd theirs && "$here/random_copy.py" "$n" ../repo wc $options) >made
    [ -d theirs/wc/.svn ] || return
    cp -a theirs/wc old
    cp -a old ours/wc
    rev=$((RANDOM % last + 1))
    [ $((n % 5)) = 3 ] && path=$(cd theirs && find wc -name .svn -prune -o -print | LC_ALL=C sort | sed -n "$((RANDOM % 8 + 1))p")
    [ -n "$path" ] || path=wc
    command=update
    [ $((n % 7)) = 5 ] && command=switch
    what="random $n, $command $path to r$rev$options"
    if [ $command = switch ]; then
        to=$(svnlook tree --full-paths -r "$rev" repo | LC_ALL=C sort | sed -n "$((RANDOM % 6 + 2))p" | sed 's|/$||')
        what="$what of $to"
        (cd theirs && svn switch --accept postpone "^/$(quoted "$to")@$rev" -r "$rev" "$path" 2>&1) >theirlines
        status=$?
        (cd ours && "$SVNCOPY" switch ../dump "$path" "^/$(quoted "$to")" "$rev") >ourlines 2>ourerrors
    else
        (cd theirs && svn update --accept postpone -r "$rev" "$path@" 2>&1) >theirlines
        status=$?
        (cd ours && "$SVNCOPY" update ../dump "$path" "$rev") >ourlines 2>ourerrors
    fi
    if [ -s ourerrors ]; then refusal "$what"; return; fi
    updated=$((updated + 1))
    is_true ours/wc || wrongly "$what: OURS ISN'T TRUE: $(head -3 audit)"
    sorted_lines <theirlines >lines && mv lines theirlines
    sorted_lines <ourlines >lines && mv lines ourlines
    compared=$((compared + 1))
    copy_rows theirs/wc >wanted
    copy_rows ours/wc >got
    cmp -s wanted got && cmp -s theirlines ourlines || differs "$what"
    svn status theirs/wc | sed 's|theirs/||' >wanted
    svn status ours/wc | sed 's|ours/||' >got
    [ $status != 0 ] || same "$what: svn status" wanted got
    # (unless the last revision lacks the copy's root)
    svn -q update --accept postpone theirs/wc 2>/dev/null || return
    svn -q update --accept postpone ours/wc 2>errors && svn cleanup ours/wc || wrongly "$what: THE CLIENT DOESN'T GO ON: $(cat errors)"
}
RANDOM=5
for n in $(seq "$RANDOM_UPDATES"); do
    if [ $((n % 5)) = 1 ]; then
        rm -rf repo
        "$here/random_history.py" "$((n + 5000))" 10 repo >/dev/null
        svnadmin dump -q repo >dump
        last=$(svnlook youngest repo)
    fi
    at_random "$n"
done
echo "    $updated updated, $refused refused, $stricter of them where Subversion merges or keeps a local change, $named other differences that docs/SUBVERSION.md names,"
echo "    $stale with other last changes: Subversion leaves some as they were, and here a revision that changes nothing of a node is none"

# begin: a repository whose second revision changes much, with a branch, and a copy of the first
begin() {
    rm -rf repo work copy
    svnadmin create repo
    svn -q checkout "$url" work
    mkdir -p work/t/d/e work/t/gone/below work/t/other
    for it in f d/g d/e/h d/kept kept gone/one gone/below/two other/o kind id; do echo "$it" >"work/t/$it"; done
    echo '$Id$' >work/t/id
    (cd work && svn -q add t && svn -q propset svn:keywords Id t/id && svn -q commit -m one && svn -q update && svn -q copy t b && svn -q commit -m two && svn -q update)
    svn -q checkout "$url/t" copy
    echo 'g, changed' >work/t/d/g
    echo '$Id$ changed' >work/t/id
    mkdir -p work/t/new/deep
    echo new >work/t/new/deep/n
    ln -s new work/t/link
    echo run >work/t/run
    (cd work && svn -q rm t/gone t/kind && svn -q add t/new t/link t/run && svn -q propset svn:executable yes t/run && svn -q propset p v t/d/e t/f && svn -q commit -m three && svn -q update)
    mkdir work/t/kind
    echo k >work/t/kind/k
    echo 'b, changed' >work/b/f
    (cd work && svn -q rm t/other && svn -q add t/kind && svn -q commit -m four && svn -q update)
    echo other >work/t/other
    (cd work && svn -q add t/other && svn -q commit -m five && svn -q update)
    svnadmin dump -q repo >dump
    rm -rf theirs ours old
    cp -a copy old
    mkdir theirs ours
}
# again: both copies are those of the first revision
again() { rm -rf theirs/wc ours/wc && cp -a old theirs/wc && cp -a old ours/wc; }

echo "== local changes that stay"
begin
# stays WHAT EDIT..: what a command changes in a copy stays, in both
stays() {
    local what=$1
    shift
    again
    for it in theirs ours; do (cd $it/wc && eval "$@") >/dev/null 2>errors || wrongly "$what: $(cat errors)"; done
    updates "$what" wc 5
    (cd theirs && svn status wc) >wanted
    (cd ours && svn status wc) >got
    same "$what: svn status" wanted got
}
stays 'nothing' :
stays 'an edited file' 'echo mine >>kept; echo mine >>d/e/h'
stays 'an edited file whose properties change' 'echo mine >>f'
stays 'a property' 'svn propset mine yes kept . d'
stays 'an addition' 'echo mine >mine; echo mine >d/mine; mkdir -p d/e/mine; svn add mine d/mine d/e/mine'
stays 'a deletion' 'svn rm kept d/kept'
stays 'a deletion of a folder' 'mkdir x; svn add x; svn rm d/e/h'
stays 'a copy' 'svn cp d/kept copied'
stays 'a changelist' 'svn changelist mine kept d/kept'
stays 'an unversioned file' 'echo mine >mine; echo mine >d/mine'
stays 'the time of a file' 'touch f id kept'
stays 'a missing file' 'rm kept d/g d/e/h gone/one'
stays 'a missing folder' 'rm -r d/e gone other'
stays 'a folder of its own' 'mkdir -p mine/below; svn add mine'

echo "== refusals"
# refuses WHAT LINE EDIT..: a copy in which a command changes something is refused with this line, and stays as it is
refuses() {
    local what=$1 line=$2
    shift 2
    again
    (cd ours/wc && eval "$@") >/dev/null 2>errors || wrongly "$what: $(cat errors)"
    all_of ours/wc >before
    refused "$what" "svncopy: ours/wc: $line" "$SVNCOPY" update dump ours/wc
    refused "$what, dry" "svncopy: ours/wc: $line" "$SVNCOPY" update dump ours/wc --dry-run
    all_of ours/wc >after
    same "$what: the copy" before after
}
refuses 'an edited file' 'd/g: changed on disk' 'echo mine >>d/g'
refuses 'an edited file that goes' 'gone/one: changed on disk' 'echo mine >>gone/one'
refuses 'a file of its own in a folder that becomes a file' 'other/mine: something is in the way' 'echo mine >other/mine'
refuses 'a file in the way' 'new: something is in the way' 'echo mine >new'
refuses 'a folder in the way' 'link: something is in the way' 'mkdir link'
refuses 'a link in place of a folder' 'd: not a directory on disk' 'mv d x; ln -s x d'
refuses 'a local property of a file whose text changes' 'd/g: a local change' 'svn propset mine yes d/g'
refuses 'a local property of a folder whose properties change' 'd/e: a local change' 'svn propset mine yes d/e'
refuses 'a deletion' 'd/g: a local change' 'svn rm d/g'
refuses 'a deletion above' 'd: a local change' 'svn rm d'
refuses 'an addition' 'new: a local change' 'mkdir new; svn add new'
refuses 'an addition below what goes' 'gone/mine: a local change' 'echo mine >gone/mine; svn add gone/mine'
refuses 'a move' 'd/g: a local change' 'svn mv d/g moved'
refuses 'a changelist' 'd/g: a local change' 'svn changelist mine d/g'
refuses 'a depth' 'd: a directory of another depth than infinity' 'svn update --set-depth files d'
refuses 'an excluded node' 'd/e: an excluded node' 'svn update --set-depth exclude d/e'
refuses 'a lock of a client' 'locked, or with unfinished work of a client: run `svn cleanup`' "sqlite3 .svn/wc.db \"insert into wc_lock values (1, '', -1)\""
again
refused 'no revision' 'svncopy: dump: there is no r9: the last is r5' "$SVNCOPY" update dump ours/wc 9
refused 'no copy' 'svncopy: repo: no working copy' "$SVNCOPY" update dump repo
refused 'nothing' 'svncopy: ours/wc/none: none: nothing is there in the target' "$SVNCOPY" update dump ours/wc/none
refused 'nothing above' 'svncopy: ours/wc/d/none/x: No such file or directory (os error 2)' "$SVNCOPY" update dump ours/wc/d/none/x
refused 'another root' "svncopy: file:///other/t: the URL isn't below the root's" "$SVNCOPY" switch dump ours/wc file:///other/t
refused 'a path that is nowhere' 'svncopy: ours/wc: .: nothing is there in the target' "$SVNCOPY" switch dump ours/wc ^/none
refused 'another node' 'svncopy: ours/wc/d: d: another node is there in the target' "$SVNCOPY" switch dump ours/wc/d ^/b/gone
refused 'no number' 'svncopy: x: not a number' "$SVNCOPY" update dump ours/wc x
rm -rf other && svnadmin create other && svnadmin dump -q other >other.dump
refused 'another repository' "svncopy: ours/wc: the working copy is of repository $(svnlook uuid repo), not of $(svnlook uuid other)" "$SVNCOPY" update other.dump ours/wc
all_of old >wanted
all_of ours/wc >got
same 'the copy after refusals' wanted got

echo "== words and lines"
again
cat >wanted <<'END'
Updating 'ours/wc':
 U   ours/wc/d/e
U    ours/wc/d/g
 U   ours/wc/f
D    ours/wc/gone
U    ours/wc/id
D    ours/wc/kind
A    ours/wc/kind
A    ours/wc/kind/k
A    ours/wc/link
A    ours/wc/new
A    ours/wc/new/deep
A    ours/wc/new/deep/n
D    ours/wc/other
A    ours/wc/other
A    ours/wc/run
END
cp wanted lines && echo 'Would be updated to revision 5.' >>wanted
all_of ours/wc >before
"$SVNCOPY" update - ours/wc/ --dry-run <dump >got 2>&1
same 'what would be done' wanted got
all_of ours/wc >after
same 'the copy of which it is said' before after
# (the files with another text come last then)
(cat lines && echo 'Updated to revision 5.') | sorted_lines >wanted
"$SVNCOPY" update - ours/wc --late-texts --no-sync <dump 2>&1 | sorted_lines >got
same 'texts at the end' wanted got
(cd theirs && svn -q update wc)
copy_rows theirs/wc >wanted
copy_rows ours/wc >got
same 'texts at the end: the copy' wanted got
printf "Updating 'ours/wc':\nAt revision 5.\n" >wanted
"$SVNCOPY" update dump ours/wc >got 2>&1
same 'nothing to do' wanted got
again
printf "Updating '.':\nU    g\nUpdated to revision 3.\n" >wanted
(cd ours/wc/d && svn -q update -r 3 e && "$SVNCOPY" update ../../../dump . 3) >got 2>&1
same 'from inside' wanted got

echo "== runs that stop at a limit"
again
(cd theirs && svn -q update wc)
copy_rows theirs/wc >whole
limit=0
while :; do
    again
    "$SVNCOPY" update dump ours/wc --limit $limit >line 2>&1 || { wrongly "limit $limit: $(cat line)"; break; }
    is_true ours/wc || wrongly "limit $limit: ISN'T TRUE: $(head -3 audit)"
    grep -q '^Updated' line && break
    grep -qx "Stopped after $limit calls on the way to revision 5." line || wrongly "limit $limit: ANOTHER LINE: $(tail -1 line)"
    rm -rf clients && cp -a ours/wc clients
    "$SVNCOPY" update dump ours/wc >line 2>&1 || wrongly "limit $limit: NOT COMPLETED: $(cat line)"
    copy_rows ours/wc >got
    same "limit $limit, completed by svncopy" whole got
    svn -q update clients 2>errors || wrongly "limit $limit: SVN: $(cat errors)"
    copy_rows clients >got
    same "limit $limit, completed by svn" whole got
    limit=$((limit + 1))
done
echo "    $limit limits"
[ $limit -gt 10 ] || wrongly "THERE WERE NO LIMITS"

echo "== updates that were cut off"
# the program is killed as it does something for the n-th time, which strace does, on the copy `old` on its way to a revision
cuts() {
    local what=$1 rev=$2 call count n
    rm -rf ours/wc && cp -a old ours/wc
    strace -f -e trace=rename,unlink,rmdir,mkdir,symlink -o trace "$SVNCOPY" update dump ours/wc "$rev" >/dev/null 2>&1 || return
    copy_rows ours/wc >whole
    for call in rename unlink rmdir mkdir symlink; do
        count=$(grep -c " $call(" trace)
        for n in $(seq "$count"); do
            rm -rf ours/wc cleaned && cp -a old ours/wc
            (strace -f -e trace=$call -e inject=$call:signal=SIGKILL:when="$n" -o /dev/null "$SVNCOPY" update dump ours/wc "$rev"; true) >/dev/null 2>&1
            cp -a ours/wc cleaned
            stops=$((stops + 1))
            [ "$(sqlite3 ours/wc/.svn/wc.db 'select count(*) from wc_lock')" = 0 ] || left=$((left + 1))
            "$SVNCOPY" resume ours/wc >line 2>&1 || wrongly "$what, $call $n: RESUME: $(cat line)"
            is_true ours/wc || wrongly "$what, $call $n: ISN'T TRUE: $(head -3 audit)"
            "$SVNCOPY" update dump ours/wc "$rev" >line 2>&1 || wrongly "$what, $call $n: UPDATE: $(cat line)"
            copy_rows ours/wc >got
            same "$what, cut off at $call $n, completed by resume" whole got
            svn cleanup cleaned 2>errors || { wrongly "$what, $call $n: SVN CLEANUP:"; sed 's/^/    /' errors; }
            "$SVNCOPY" update dump cleaned "$rev" >line 2>&1 || wrongly "$what, $call $n: UPDATE AFTER CLEANUP: $(cat line)"
            copy_rows cleaned >got
            same "$what, cut off at $call $n, completed by svn cleanup" whole got
        done
    done
}
stops=0 left=0
cuts 'the copy' 5
for n in $(seq "$CUT_UPDATES"); do
    rm -rf repo old
    "$here/random_history.py" "$((n + 7000))" 8 repo >/dev/null
    svnadmin dump -q repo >dump
    "$here/random_copy.py" "$((n + 7000))" repo old >/dev/null
    cuts "random $n" "$(svnlook youngest repo)"
done
echo "    $stops stops, and $left of them had work left"
[ $left != 0 ] || wrongly "NO WORK WAS LEFT"

echo "== beside a client at work on the same copy, for ${BESIDE_SECONDS:=10} seconds"
begin
again
: >resumed.svncopy
until=$((SECONDS + BESIDE_SECONDS))
# (where the client was at work when all was done, the work waits for resume)
svncopy_works() {
    while [ $SECONDS -lt $until ]; do
        "$SVNCOPY" update dump ours/wc $((RANDOM % 4 + 2)) >>done.svncopy 2>>failed.svncopy || "$SVNCOPY" resume ours/wc >>resumed.svncopy 2>>failed.svncopy
    done
}
svn_works() { while [ $SECONDS -lt $until ]; do svn -q update -r $((RANDOM % 4 + 2)) ours/wc >>done.svn 2>>failed.svn; svn status ours/wc >>status.svn 2>>failed.svn; done; }
svncopy_works &
svn_works &
wait
echo "    $(grep -c '^Updated' done.svncopy) updates of svncopy, which was refused $(wc -l <failed.svncopy) times, and $(grep -c ': completed' resumed.svncopy) completions"
# each is a refusal of the copy, by a line of its own: what the client has half done may be in the way of anything
grep -v '^svncopy: ours/wc: ' failed.svncopy | head -5 >got
: >wanted
same 'beside a client: other lines' wanted got
# SQLite's lock is held while a database is replaced
! grep 'a client began to write when the database was replaced' failed.svncopy || wrongly 'beside a client: ITS CHANGE IS LOST'
"$SVNCOPY" resume ours/wc >line 2>&1 || svn cleanup ours/wc || wrongly "beside a client: NEITHER COMPLETES IT: $(cat line)"
(cd theirs && svn -q update wc)
svn -q update ours/wc || wrongly 'beside a client: THE CLIENT DOESN'"'"'T GO ON'
copy_rows theirs/wc >wanted
copy_rows ours/wc >got
same 'beside a client: the copy' wanted got
end
