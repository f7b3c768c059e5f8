#!/bin/bash
# `svnaudit live`, which asks a server, beside `svnaudit check`, which reads a dump: of the same copies, true and false, both print the same lines and end with
# the same status. The server is `svnserve -t`, at the other ends of two named pipes, or of standard input and output.
#
# It needs Debian's packages `subversion` and `sqlite3`, and `svnaudit` as `tools/prove svnaudit` builds it: crates/svnaudit/out/svnaudit, or the program
# that the variable SVNAUDIT names. RANDOM_COPIES says how many copies are made at random, by default 40. It works in a folder of its own, which goes at the
# end, and is no part of the gate. The last line counts what differs.
. "$(dirname "${BASH_SOURCE[0]}")/room.sh"
. "$here/dump_history.sh"
. "$here/false_copies.sh"
needs svnserve sqlite3 python3
needs_built svnaudit
mkfifo to from

# serve [OPTION..]: a server at the other ends of the pipes, in place of the one before
serve() { served; svnserve -t "$@" <to >from 2>served & server=$!; }
served() { [ -z "$server" ] || { kill $server; wait $server; } 2>/dev/null; server=; }
server=

# live WORD..: what a server makes of the copies, in `got`, `notes` and $status
live() {
    serve
    timeout 300 "$SVNAUDIT" live to from "$@" >got 2>notes
    status=$?
    served
}

# compare DUMP WORD..: both say the same of these copies
compare() {
    local dump=$1 wanted_status
    shift
    echo "    $*"
    "$SVNAUDIT" check "$dump" "$@" >wanted 2>wanted_notes
    wanted_status=$?
    live "$@"
    same "$*: the lines" wanted got
    same "$*: what is passed over" wanted_notes notes
    [ $status = $wanted_status ] || { wrong=$((wrong + 1)); echo "$*: STATUS $status, by the dump $wanted_status"; sed 's/^/    /' notes; }
}

make_history repo || exit 1
svnadmin dump -q repo >dump
url=file://$room/repo
last=$(svnlook youngest repo)
checkout() { rm -rf "$1"; svn checkout -q "$url/$2@$3" -r "$3" "$1"; }

echo "== named copies"
checkout plain trunk 4; compare dump plain
checkout whole '' $last; compare dump whole
checkout mixed '' 9
svn update -q -r 4 mixed/branches; svn update -q -r 3 mixed/trunk/odd; svn update -q -r 8 mixed/trunk/a.c
compare dump mixed
checkout switched trunk 8
svn switch -q --ignore-ancestry "$url/branches/1.x/lib@7" -r 7 switched/library; svn switch -q --ignore-ancestry "$url/branches/early/a.c@8" -r 8 switched/a.c
compare dump switched
checkout not_present '' 8
svn update -q -r 2 not_present/branches/early; svn update -q -r 1 not_present/trunk/a.c
compare dump not_present
checkout below branches/1.x 7; svn update -q -r 5 below/lib; compare dump below
checkout local trunk 5
echo mine >>local/lib/one; svn -q propset mine 1 local/lib; mkdir local/new; echo new >local/new/file; svn -q add local/new; svn -q remove local/empty
svn -q move local/binary local/moved; svn -q copy local/odd local/odd2; compare dump local
checkout conflicts trunk 4
echo mine >conflicts/a.c; svn -q propset note mine conflicts; svn update -q --accept postpone -r 8 conflicts >/dev/null
compare dump conflicts
checkout cut '' 9
sqlite3 cut/.svn/wc.db "update nodes set presence = 'incomplete' where kind = 'dir' and local_relpath != 'trunk'"
sqlite3 cut/.svn/wc.db "delete from nodes where local_relpath = 'trunk/odd/a b'; delete from nodes where local_relpath = 'branches/early/a.c'"
compare dump cut
compare dump plain/odd whole/trunk/library/sub
echo "    several over one connection"
compare dump plain whole mixed nowhere switched below cut

echo "== ${RANDOM_COPIES:=40} copies at random"
RANDOM=1
for n in $(seq "$RANDOM_COPIES"); do
    checkout random '' $((RANDOM % last + 1))
    for step in 1 2 3; do
        path=$(cd random && find . -mindepth 1 -not -path '*/.svn*' | LC_ALL=C sort | sed -n "$((RANDOM % 40 + 1))p")
        [ -n "$path" ] && svn update -q --accept postpone -r $((RANDOM % last + 1)) "random/$path@" >/dev/null 2>&1
    done
    [ -d random/.svn ] && compare dump random
done

echo "== copies that aren't true"
make_false_copies
for name in $false_copies; do
    compare $name.dump $name
    sed 's/^/    /' got
done
# false FROM WHAT SQL: a copy whose database is changed
false_copy() {
    rm -rf changed; cp -a "$1" changed
    sqlite3 changed/.svn/wc.db "$3"
    compare dump changed
    [ $status = 1 ] || { wrong=$((wrong + 1)); echo "$2: THE STATUS ISN'T 1"; }
    sed 's/^/        /' got | head -4
}
false_copy whole 'a revision that is not there' "update nodes set revision = 99 where local_relpath like 'trunk/odd%'"
false_copy whole 'a file that is a directory' "update nodes set repos_path = 'trunk/odd' where local_relpath = 'trunk/a.c'"
false_copy whole 'a directory that is a file' "update nodes set repos_path = 'trunk/a.c' where local_relpath = 'trunk/odd'"
false_copy whole 'a directory below a file' "update nodes set repos_path = 'trunk/a.c/sub' where local_relpath = 'trunk/odd'"
false_copy whole 'a directory that is nowhere' "update nodes set repos_path = 'trunk/gone' where local_relpath = 'trunk/odd'"
false_copy whole 'a file below a file' "update nodes set repos_path = 'trunk/a.c/sub' where local_relpath = 'trunk/binary'"
false_copy whole 'another text' "update nodes set checksum = (select checksum from nodes where local_relpath = 'trunk/binary') where local_relpath = 'trunk/a.c'"
false_copy whole 'another property' "update nodes set properties = cast('(p v)' as blob) where local_relpath = 'trunk/a.c'"
false_copy cut 'an incomplete directory that is a file' "update nodes set repos_path = 'trunk/a.c' where local_relpath = 'branches/1.x/lib'"
false_copy cut 'an incomplete directory that is nowhere' "update nodes set repos_path = 'gone' where local_relpath = 'branches/1.x/lib'"
false_copy whole 'places without directories, and others' "update nodes set repos_path = 'trunk/a.c/sub' where local_relpath in ('trunk/odd', 'branches/1.x'); update nodes set repos_path = 'trunk/a.c' where local_relpath in ('trunk', 'branches/early'); update nodes set revision = 2 where local_relpath = 'tags'"

echo "== by standard input and output, and one by one"
"$SVNAUDIT" check dump plain whole changed >wanted
mkfifo back
svnserve -t <back 2>served | timeout 300 "$SVNAUDIT" live - plain whole changed >back 2>got
same "standard input and output" wanted got
serve; timeout 300 "$SVNAUDIT" live to from plain whole changed --one-by-one >got 2>notes; served
same "one by one" wanted got
serve --root "$room"; timeout 300 "$SVNAUDIT" live to from plain whole changed --url svn://x/repo/trunk >got 2>notes; served
same "a URL" wanted got

echo "== refusals"
serve; refused 'another repository' "svnaudit: from: the server has another repository" timeout 300 "$SVNAUDIT" live to from plain --url "svn://$room/lost_row.repo"
serve; refused 'no repository' "svnaudit: from: the server failed with E210005: No repository found in 'svn:///nowhere'" timeout 300 "$SVNAUDIT" live to from plain --url "svn:///nowhere"
served; (exec 3<to 4>from) & server=$!
refused 'a server that says nothing' "svnaudit: from: the answers end before all questions are answered" timeout 300 "$SVNAUDIT" live to from plain
served; (exec 3<to 4>from; echo 'Welcome to this host' >&4; sleep 1) & server=$!
refused 'a server that says something else' "svnaudit: from: an item that is no answer" timeout 300 "$SVNAUDIT" live to from plain
served
refused 'no copy' "svnaudit: nowhere: No such file or directory (os error 2)" timeout 300 "$SVNAUDIT" live to from nowhere
live plain lost_row
printf '%s\n' "svnaudit: lost_row: the working copy is of repository $(svnlook uuid lost_row.repo), not of $(svnlook uuid repo)" >wanted
same "a copy of another repository" wanted notes
[ $status = 2 ] || { wrong=$((wrong + 1)); echo "a copy of another repository: STATUS $status"; }
end
