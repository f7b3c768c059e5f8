#!/bin/bash
# Working copies that `svncopy checkout` makes of a dump, compared with those that `svn checkout` makes of the repository: the rows of the database, the
# pristine texts, files, modes and links. Each is made of three dumps: of `svnadmin dump`, of `svnadmin dump --deltas`, and of `svnrdump dump`. Then the
# client works on in them: status, commit, update, switch, revert, cleanup. Copies whose making was cut off by a signal are completed by `svncopy resume`,
# and by `svn cleanup`.
#
# It needs Debian's packages `subversion`, `sqlite3` and `strace`, python3, and `svncopy` as `tools/prove svncopy` builds it: crates/svncopy/out/svncopy, or the
# program that the variable SVNCOPY names. RANDOM_COPIES says how many copies are made at random, by default 60, and LONG how many texts one file has, each a
# delta over the one before, by default 1,000. It works in a folder of its own, which goes at the end, and is no part of the gate. The last line counts what
# differs.
. "$(dirname "${BASH_SOURCE[0]}")/room.sh"
. "$here/dump_history.sh"
needs sqlite3 python3 strace svnrdump
needs_built svncopy

# dump_all: the repository as each of the three dumps
dump_all() {
    svnadmin dump -q repo >dump
    svnadmin dump -q --deltas repo >deltas
    svnrdump dump -q "file://$room/repo" >remote
}

make_history repo || exit 1
dump_all
url=file://$room/repo
last=$(svnlook youngest repo)
# a name of a URL, with its signs escaped
escaped() { python3 -c 'import sys, urllib.parse; print(urllib.parse.quote(sys.argv[1]))' "$1"; }

# pristine_texts WC: the pristine texts, each with its checksum
pristine_texts() { (cd "$1/.svn/pristine" && find . -type f | LC_ALL=C sort | xargs -r sha1sum); }

# compare_with WHAT AT REV DUMP: the copy of this dump with the client's, which is in `theirs`
compare_with() {
    local what="$1, of $4"
    rm -rf ours
    "$SVNCOPY" checkout "$4" "$2@$3" ours --root "$url" >got 2>&1
    echo "Checked out revision $3." >wanted
    same "$what: the line" wanted got
    "$here/rows.py" theirs >wanted
    "$here/rows.py" ours >got
    same_copies "$what: the copy"
    pristine_texts theirs >wanted
    pristine_texts ours >got
    same "$what: the texts" wanted got
    svn status ours >got
    : >wanted
    same "$what: svn status" wanted got
}

# compare WHAT PATH REV: the copies of both programs
compare() {
    local at dump
    at=$url/$(escaped "$2")
    rm -rf theirs
    svn -q checkout "$at@$3" -r "$3" theirs 2>errors || return 0
    for dump in dump deltas remote; do compare_with "$1" "$at" "$3" "$dump"; done
}

echo "== named copies"
for rev in $(seq 0 "$last"); do compare "r$rev" '' "$rev"; done
compare trunk trunk 4
compare odd trunk/odd 9
compare branch branches/1.x/lib 7

echo "== ${RANDOM_COPIES:=60} copies at random, of histories at random"
RANDOM=2
for n in $(seq "$RANDOM_COPIES"); do
    if [ $((n % 10)) = 1 ]; then
        rm -rf repo
        "$here/random_history.py" "$n" 12 repo >/dev/null
        dump_all
        last=$(svnlook youngest repo)
    fi
    rev=$((RANDOM % last + 1))
    path=$(svnlook tree --full-paths -r "$rev" repo | grep '/$' | LC_ALL=C sort | sed -n "$((RANDOM % 4 + 1))p" | sed 's|/$||; s|^/||')
    compare "random $n, r$rev of '$path'" "$path" "$rev"
done

echo "== the client works on"
rm -rf repo copy
make_history repo || exit 1
dump_all
last=$(svnlook youngest repo)
rm -rf ours
"$SVNCOPY" checkout dump "$url/trunk@4" ours --root "$url" >/dev/null || wrong=$((wrong + 1))
work_on() {
    echo mine >>ours/a.c
    [ "$(svn status ours)" = "M       ours/a.c" ] || return 1
    svn -q revert ours/a.c && [ -z "$(svn status ours)" ] || return 1
    svn -q update -r 6 ours && svn -q switch "$url/branches/1.x@7" -r 7 ours && svn -q switch "$url/trunk" ours || return 1
    echo more >>ours/library/one && svn -q commit -m more ours && svn -q update ours && svn cleanup --vacuum-pristines ours || return 1
    [ -z "$(svn status ours)" ] && sqlite3 ours/.svn/wc.db 'pragma integrity_check' | grep -qx ok
}
compared=$((compared + 1))
work_on 2>errors || { wrong=$((wrong + 1)); echo "THE CLIENT DOESN'T GO ON:"; sed 's/^/    /' errors; }

echo "== standard input, and a file with ${LONG:=1000} texts, one over the other"
make_long() {
    svnadmin create long
    svn -q checkout "file://$room/long" longer && (cd longer && seq 2000 >f && svn -q add f && svn -q commit -m begin) || return 1
    for n in $(seq "$LONG"); do sed -i "$((n % 2000 + 1))s/\$/ $n/" longer/f && svn -q commit -m "$n" longer || return 1; done
}
make_long || wrong=$((wrong + 1))
url=file://$room/long
rm -rf theirs && svn -q checkout "$url" theirs
for kind in 'svnadmin dump -q --deltas long' "svnrdump dump -q $url"; do
    rm -rf ours
    $kind | "$SVNCOPY" checkout - "$url" ours >/dev/null
    "$here/rows.py" theirs >wanted
    "$here/rows.py" ours >got
    same "$kind: the copy" wanted got
    ls | grep svncopy >got
    : >wanted
    same "$kind: what is left" wanted got
done
url=file://$room/repo

echo "== dumps of deltas that are refused"
"$here/damaged_deltas.py" remote "$room" >refusals || wrong=$((wrong + 1))
while read -r name line; do
    refused "$name" "svncopy: $name: $line" "$SVNCOPY" checkout "$name" "$url" new
done <refusals

echo "== copies that were cut off"
rm -rf repo copy
make_history repo || exit 1
svnadmin dump -q repo >dump
svn -q checkout "$url@8" -r 8 theirs8
"$here/rows.py" theirs8 >wanted8
# the program is killed as it renames something for the n-th time, which strace does
strace -f -e trace=rename -o trace "$SVNCOPY" checkout dump "$url@8" counted >/dev/null
renames=$(grep -c 'rename(' trace)
copies=0 cut=0
for n in $(seq 1 3 "$renames") "$renames"; do
    rm -rf ours again
    (strace -f -e trace=rename -e inject=rename:signal=SIGKILL:when="$n" -o /dev/null "$SVNCOPY" checkout dump "$url@8" ours; true) >/dev/null 2>&1
    if [ ! -d ours/.svn ]; then
        refused "cut off at rename $n, again" "svncopy: ours: a checkout was cut off: \`svncopy resume\` removes what it left" "$SVNCOPY" checkout dump "$url@8" ours
        "$SVNCOPY" resume ours >got
        echo "ours: no copy: removed what a checkout left" >wanted
        same "cut off at rename $n, cleared" wanted got
        "$SVNCOPY" checkout dump "$url@8" ours >/dev/null
        "$here/rows.py" ours >got
        same "cut off at rename $n, cleared and made" wanted8 got
        continue
    fi
    copies=$((copies + 1))
    cp -a ours again
    [ "$(sqlite3 ours/.svn/wc.db 'select count(*) from wc_lock')" = 0 ] || cut=$((cut + 1))
    "$SVNCOPY" resume ours >/dev/null 2>errors || { wrong=$((wrong + 1)); sed 's/^/    /' errors; }
    "$here/rows.py" ours >got
    same "cut off at rename $n, completed by resume" wanted8 got
    svn cleanup again
    svn status again >got
    : >wanted
    same "cut off at rename $n, completed by svn cleanup" wanted got
done
echo "    there was a copy after $copies of them, and $cut had work left"
[ $cut != 0 ] || wrong=$((wrong + 1))

echo "== refusals"
rm -rf ours; mkdir ours; echo mine >ours/trunk
refused 'a file in the way' "svncopy: ours: trunk: something is in the way" "$SVNCOPY" checkout dump "$url@4" ours
refused 'a copy' "svncopy: theirs8: there is a working copy already" "$SVNCOPY" checkout dump "$url@4" theirs8
refused 'another root' "svncopy: $url/trunk: the URL isn't below the root's" "$SVNCOPY" checkout dump "$url/trunk" ours --root svn://other
refused 'no such revision' "svncopy: dump: there is no r99: the last is r$(svnlook youngest repo)" "$SVNCOPY" checkout dump "$url@99" new
refused 'a bad revision' "svncopy: $url@x: bad URL" "$SVNCOPY" checkout dump "$url@x" new
refused 'no dump' "svncopy: nowhere: No such file or directory (os error 2)" "$SVNCOPY" checkout nowhere "$url@4" new
refused 'no copy' "svncopy: repo: no working copy" "$SVNCOPY" resume repo
printf 'SVN-fs-dump-format-version: 2\n\nUUID: 11111111-2222-3333-4444-555555555555\n\n' >reserved
printf 'Revision-number: %d\nProp-content-length: 10\nContent-length: 10\n\nPROPS-END\n\n' 0 1 >>reserved
printf 'Node-path: .svn\nNode-kind: dir\nNode-action: add\n\n\n' >>reserved
refused 'a node named .svn' "svncopy: svn://h/r@1: .svn: no node of a working copy may have the name .svn" "$SVNCOPY" checkout reserved svn://h/r@1 new
sqlite3 theirs8/.svn/wc.db "insert into wc_lock values (1, '', -1)"
refused 'a lock of a client' "svncopy: theirs8: locked, or with unfinished work of a client: run \`svn cleanup\`" "$SVNCOPY" resume theirs8
end
