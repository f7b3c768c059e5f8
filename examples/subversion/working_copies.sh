#!/bin/bash
# Working copies that `svn` makes, and what `svnaudit` says of them before they are updated: the report, compared with what the client then sends to
# `svnserve`; the lines, compared with those that `svn update` prints; and the nodes, compared with what the database has afterwards. Then sparse copies,
# true and false, and others that aren't true, of which `svn status` prints nothing.
#
# It needs Debian's packages `subversion` and `sqlite3`, python3, and `svnaudit` as `tools/prove svnaudit` builds it: crates/svnaudit/out/svnaudit, or
# the program that the variable SVNAUDIT names. RANDOM_COPIES says how many copies are made at random, by default 40. It works in a folder of its own,
# which goes at the end, and is no part of the gate. The last line counts what differs.
. "$(dirname "${BASH_SOURCE[0]}")/room.sh"
. "$here/dump_history.sh"
. "$here/false_copies.sh"
. "$here/sparse_copies.sh"
needs svnserve svnrdump sqlite3 python3
needs_built svnaudit

# what the client says is kept, and the server stops after as many bytes as are in `cut_after`, by killing the client
cat >tunnel <<TUNNEL
#!/bin/bash
client=\$PPID
if [ -s "$room/cut_after" ]; then
    tee -a "$room/said" | svnserve -t | { dd bs=1 count="\$(cat "$room/cut_after")" status=none; kill -9 \$client; }
else
    tee -a "$room/said" | svnserve -t
fi
TUNNEL
chmod +x tunnel
# (svn appends the words \`HOST svnserve -t\`, which are not wanted)
client() { svn --config-option "config:tunnels:kept=$room/tunnel" --non-interactive "$@"; }

make_history repo || exit 1
svnadmin dump -q repo >dump
url=svn+kept://x$room/repo
last=$(svnlook youngest repo)

# checkout NAME PATH REV
checkout() { rm -rf "$1"; client checkout -q "$url/$2@$3" -r "$3" "$1"; }

# printed NAME: the lines of `svn update` that are about nodes, sorted
printed() { grep -E '^[ADU ][U ]   ?[^ ]' | sed -E "s|^(....).(.)|\\1 \\2|" | grep -E "^(A |D |U | U|UU)   " | sed "s|^\(.....\)$1/|\1|; s|^\(.....\)$1\$|\1.|" | LC_ALL=C sort; }

# compare NAME PATH REV [nolines]: what is said of the copy of PATH before, and what an update to REV does
compare() {
    local name=$1 path=$2 rev=$3 lines=${4-}
    echo "    $name, to r$rev"
    # (at once: a slow build takes seconds for each)
    "$SVNAUDIT" report dump "$name" >report 2>/dev/null &
    "$SVNAUDIT" update dump "$name" "$rev" >lines 2>/dev/null &
    "$SVNAUDIT" nodes dump "$name" "$rev" >nodes 2>/dev/null &
    "$SVNAUDIT" check dump "$name" >got 2>&1
    wait
    grep -q "^$name: true: " got || { wrong=$((wrong + 1)); echo "$name IS NOT CALLED TRUE:"; sed 's/^/    /' got; }
    compared=$((compared + 1))
    : >said
    svn cleanup "$name"
    client update --accept postpone --ignore-externals -r "$rev" "$name" >update 2>errors
    # (the order of a report's entries is free but for that of above and below)
    "$here/reports.py" said "$url" "$path" | LC_ALL=C sort >wanted
    LC_ALL=C sort -o report report
    same "$name: the report" wanted report
    if [ "$lines" != nolines ]; then
        printed "$name" <update >wanted
        same "$name: the lines" wanted lines
    fi
    "$here/nodes.py" "$name" >wanted
    same "$name: the nodes after the update" wanted nodes
}

echo "== named copies"
checkout plain trunk 4; compare plain trunk 9
checkout back trunk 12; compare back trunk 2
checkout whole '' 2; compare whole '' "$last"
checkout mixed '' 9
client update -q -r 4 mixed/branches; client update -q -r 3 mixed/trunk/odd; client update -q -r 8 mixed/trunk/a.c
compare mixed '' 12
checkout switched trunk 8
client switch -q --ignore-ancestry "$url/branches/1.x/lib@7" -r 7 switched/library; client switch -q --ignore-ancestry "$url/branches/early/a.c@8" -r 8 switched/a.c
compare switched trunk 9
checkout not_present '' 8
client update -q -r 2 not_present/branches/early; client update -q -r 1 not_present/trunk/a.c
compare not_present '' 10
checkout below branches/1.x 7; client update -q -r 5 below/lib; compare below branches/1.x 9
checkout local trunk 5
echo mine >>local/lib/one; svn -q propset mine 1 local/lib; mkdir local/new; echo new >local/new/file; svn -q add local/new; svn -q remove local/empty
svn -q move local/binary local/moved; svn -q copy local/odd local/odd2; compare local trunk 6 nolines
checkout conflicts trunk 4
echo mine >conflicts/a.c; svn -q propset note mine conflicts; client update -q --accept postpone -r 8 conflicts
echo other >conflicts/library/uno; compare conflicts trunk 9 nolines
cut=0
for bytes in 600 2000 4000 6000 8000; do
    checkout cut trunk 2
    echo $bytes >cut_after
    (client update -q -r 12 cut) >/dev/null 2>&1
    rm -f cut_after
    # killed within a transaction, it leaves a journal, which SQLite takes back as it opens the database
    [ "$(sqlite3 cut/.svn/wc.db "select count(*) from nodes where presence = 'incomplete'")" = 0 ] || cut=$((cut + 1))
    compare cut trunk 12 nolines
done
echo "    $cut of 5 updates were cut off within a directory"
[ $cut != 0 ] || wrong=$((wrong + 1))

echo "== a folder within a copy"
checkout plain trunk 8
(cd plain/library && "$SVNAUDIT" check ../../dump . >../../got 2>&1; "$SVNAUDIT" report ../../dump sub >>../../got 2>&1)
printf '%s\n' ".: true: 4 nodes, r8" "root trunk/library/sub" "set . 8" >wanted
same "a folder within a copy" wanted got

echo "== folders that are gone in the target"
svnadmin create gone.repo; gone=file://$PWD/gone.repo
svn -q mkdir --parents -m 1 "$gone/d/e" "$gone/t/x"; svn -q checkout "$gone" gone.wc; echo a >gone.wc/d/f; svn -q add gone.wc/d/f; svn -q commit -m 2 gone.wc
svn -q update gone.wc; svn -q checkout "$gone/t" gone.t; svn -q copy -m 3 "$gone/t" "$gone/s"; svn -q update gone.wc; svn -q switch "$gone/t" gone.wc/s
svn -q rm -m 4 "$gone/d" "$gone/t"; svnadmin dump -q gone.repo >gone.dump
for folder in d d/e; do
    for question in update calls nodes; do "$SVNAUDIT" $question gone.dump gone.wc/$folder; done >got 2>&1
    rev=$(svnversion -n gone.wc/$folder)
    rm -rf gone.after; cp -a gone.wc gone.after
    # (by its path the client prints it; and the database has it as not present)
    svn update gone.after/$folder 2>&1 | sed -n "s|^D    gone.after/$folder\$|D    .|p" >wanted
    printf '%s\n' 'set_target_revision 4' "open_root $rev #0" "delete_entry ${folder##*/} $rev #0" 'close_directory #0' 'close_edit' >>wanted
    sqlite3 gone.after/.svn/wc.db "select '. ' || presence from nodes where local_relpath = '$folder'" >>wanted
    same "$folder, which is gone" wanted got
done
# a whole copy, and a switched folder
for folder in gone.t gone.wc/s; do
    svn update -q $folder >/dev/null 2>errors && { wrong=$((wrong + 1)); echo "$folder: SVN UPDATES IT"; }
    grep -q "E160005: Target path '/t' does not exist" errors || { wrong=$((wrong + 1)); echo "$folder: SVN SAYS SOMETHING ELSE"; }
    for question in update calls nodes; do
        refused "$question of $folder" "svnaudit: $folder: the target path does not exist" "$SVNAUDIT" $question gone.dump $folder
    done
done

echo "== copies within a copy"
svn -q checkout "$gone/t@3" plain/other
svn -q checkout "file://$PWD/repo/trunk/library" plain/library/inner
"$SVNAUDIT" check dump plain >got 2>notes
printf '%s\n' 'svnaudit: plain: working copies of their own are in it: library/inner, other' >wanted
same "copies within a copy" wanted notes
rm -rf plain/other plain/library/inner
# more than are named
for number in 1 2 3 4 5 6 7; do svn -q checkout "$gone/t@3" plain/library/inner$number; done
"$SVNAUDIT" check dump plain 2>&1 >out | sed 's/inner[1-7]/inner/g' >notes
printf '%s\n' "svnaudit: plain: working copies of their own are in it: $(printf 'library/inner, %.0s' 1 2 3 4)library/inner and 2 more" >wanted
same "seven copies within a copy" wanted notes
rm -rf plain/library/inner?

echo "== externals, also of another repository, and files"
svnadmin hotcopy -q repo externals.repo; outer=file://$PWD/externals.repo
svn -q checkout "$outer/trunk" externals
svn -q propset svn:externals "^/trunk/library within
^/trunk/library deep/er
^/trunk/library/one one
$gone/s foreign" externals
svn -q commit -m "its externals" externals; svn -q update externals; svnadmin dump -q externals.repo >externals.dump
# each folder has a database of its own, and the copy's has no other row of the base tree than the file
sqlite3 externals/.svn/wc.db "select local_relpath from nodes where op_depth = 0 and (file_external is not null or repos_id <> (select repos_id from nodes where local_relpath = ''))" >got
printf '%s\n' one >wanted
same "rows of externals" wanted got
"$SVNAUDIT" check externals.dump externals externals/within externals/deep/er >got 2>notes
count=$(sqlite3 externals/.svn/wc.db "select count(*) from nodes where op_depth = 0 and file_external is null"); rev=$(svnlook youngest externals.repo)
within=$(sqlite3 externals/within/.svn/wc.db "select count(*) from nodes")
printf '%s\n' "externals: true: $count nodes, r$rev" "externals/within: true: $within nodes, r$rev" "externals/deep/er: true: $within nodes, r$rev" >wanted
same "copies with externals" wanted got
grep ' externals: ' notes >got
printf 'svnaudit: externals: %s\n' 'each folder that svn:externals bring is a working copy of its own; they are at: .' \
    'working copies of their own are in it: foreign, within' 'passed over: 1 file external' >wanted
same "notes of externals" wanted got
refused "a copy of another repository" "svnaudit: externals/foreign: the working copy is of repository $(svnlook uuid gone.repo), not of $(svnlook uuid externals.repo)" \
    "$SVNAUDIT" check externals.dump externals/foreign
"$SVNAUDIT" check gone.dump externals/foreign >got 2>notes
printf '%s\n' "externals/foreign: true: 2 nodes, r$(svnlook youngest gone.repo)" >wanted
same "a copy of another repository with its dump" wanted got
# a client doesn't write rows of another repository at the copy's own depth
svn switch -q --ignore-ancestry "$gone/s" externals/library >out 2>&1 && { wrong=$((wrong + 1)); echo "SVN SWITCHES TO ANOTHER REPOSITORY"; }

echo "== ${RANDOM_COPIES:=40} copies at random"
RANDOM=1
taken=0
for n in $(seq "$RANDOM_COPIES"); do
    rev=$((RANDOM % last + 1)) to=$((RANDOM % last + 1)) path=
    checkout random '' $rev
    for step in 1 2 3; do
        path=$(cd random && find . -mindepth 1 -not -path '*/.svn*' | LC_ALL=C sort | sed -n "$((RANDOM % 40 + 1))p")
        [ -n "$path" ] && client update -q --accept postpone -r $((RANDOM % last + 1)) "random/$path@" >/dev/null 2>&1
    done
    [ -d random/.svn ] || continue
    # where an entry is below what became a file, Subversion fails with E160013
    cp -a random again; client update -q -r $to again >/dev/null 2>errors; rm -rf again
    if grep -q 'E160013\|E160005\|E155' errors; then continue; fi
    compare random '' $to
    taken=$((taken + 1))
done
echo "    $taken of them compared"
[ $taken -ge $((RANDOM_COPIES / 2)) ] || wrong=$((wrong + 1))

echo "== copies that aren't true, of which svn status prints nothing"
make_false_copies
url=svn+kept://x$room/repo
for name in $false_copies; do
    [ -z "$(svn status -q "$name")" ] || { wrong=$((wrong + 1)); echo "$name: SVN STATUS PRINTS SOMETHING"; }
    svnadmin dump -q "$name.repo" | "$SVNAUDIT" check - "$name" >got
    [ $? = 1 ] || { wrong=$((wrong + 1)); echo "$name: THE STATUS ISN'T 1"; }
    sed "s/^/$name: untrue: /" "$name.untrue" >wanted
    same "$name" wanted got
    sed 's/^/    /' got
done

echo "== what the client mends of them"
# mends NAME PATH..: the client takes each path out and back, and the copy is true
mends() {
    local name=$1 path
    shift
    rm -rf "$name.mended"; cp -a "$name" "$name.mended"
    for path in "$@"; do
        svn update -q --set-depth exclude "$name.mended/$path"
        svn update -q --set-depth infinity "$name.mended/$path"
    done
    "$SVNAUDIT" check "$name.dump" "$name.mended" >got 2>&1
    compared=$((compared + 1))
    grep -q "^$name.mended: true: " got || { wrong=$((wrong + 1)); echo "$name ISN'T MENDED:"; sed 's/^/    /' got; }
}
mends another_node a
mends replaced_directory d/s
mends restored d
mends wrong_revision d
mends lost_row b
mends odd_property d

echo "== files, whatever svn status says"
rm -rf plain; svn -q checkout "file://$PWD/repo/trunk@4" -r 4 plain
"$SVNAUDIT" check dump plain --files >got 2>&1
# (a.c has svn:eol-style and svn:keywords)
printf '%s\n' 'plain: true: 27 nodes, r4' 'plain: 22 files compared, 1 files not compared' >wanted
same 'the files of a checkout' wanted got
# another text of the same size and time, and one that is gone
touch -r plain/lib/one time; chmod u+w plain/lib/one; printf 'ten\n' >plain/lib/one; touch -r time plain/lib/one; rm plain/empty
"$SVNAUDIT" check dump plain --files >got 2>errors
[ $? = 1 ] || { wrong=$((wrong + 1)); echo "THE STATUS ISN'T 1"; }
printf '%s\n' 'plain: true: 27 nodes, r4' 'plain: changed: empty: No such file or directory (os error 2)' \
    'plain: changed: lib/one: the file has other bytes than its pristine text' 'plain: 22 files compared, 1 files not compared' >wanted
LC_ALL=C sort -o wanted wanted; LC_ALL=C sort -o got got
same 'changed files' wanted got

echo "== another UUID, and late dumps"
svnadmin hotcopy -q repo mirror; svnadmin setuuid mirror; svnadmin dump -q mirror >mirror.dump
refused 'another UUID' "svnaudit: plain: the working copy is of repository $(svnlook uuid repo), not of $(svnlook uuid mirror)" "$SVNAUDIT" check mirror.dump plain
"$SVNAUDIT" check mirror.dump plain --any-uuid >got 2>&1
printf '%s\n' 'plain: true: 27 nodes, r4, whatever its UUID' >wanted
same 'a mirror' wanted got
# (later revisions of `repo` copy what is in older ones, and a dump without these is refused)
svnadmin create late.repo
for name in d e f; do svn -q mkdir -m "$name" "file://$PWD/late.repo/$name"; done
svnadmin dump -q -r 2:3 late.repo >late.dump 2>errors
svn -q checkout -r 1 "file://$PWD/late.repo" early; svn -q checkout "file://$PWD/late.repo" late
"$SVNAUDIT" check late.dump early 2>&1 >out | tail -n 1 >got
printf '%s\n' 'svnaudit: early: the dump begins with r2, and the copy has nodes of revisions before' >wanted
same 'a late dump' wanted got
"$SVNAUDIT" check late.dump late >got 2>errors
printf '%s\n' 'late: true: 4 nodes, r3, properties of the root as far as the dump tells them' >wanted
same 'a late dump of a later copy' wanted got
"$SVNAUDIT" check late.dump late/d >got 2>errors
printf '%s\n' 'late/d: true: 1 nodes, r3' >wanted
same 'a late dump of a folder' wanted got
# the dump leaves out what revision 4 set on the root
svn -q propset note kept late; svn -q commit -m 4 late; svn -q mkdir -m 5 "file://$PWD/late.repo/g"; svn -q update late
svnadmin dump -q -r 5:5 late.repo >later.dump 2>errors
"$SVNAUDIT" check later.dump late 2>&1 >out | tail -n 1 >got
printf '%s\n' 'svnaudit: late: the dump begins with r5, and may leave out properties of the root that the copy has' >wanted
same 'a late dump without properties of the root' wanted got
for word in 8 r8; do
    "$SVNAUDIT" show dump $word trunk/a.c >got; "$SVNAUDIT" show dump "$last" trunk >>got
    "$SVNAUDIT" show dump 8 trunk/a.c >wanted; "$SVNAUDIT" show dump HEAD trunk >>wanted
    same "a revision by $word and HEAD" wanted got
done

echo "== sparse copies, of which svn status prints nothing"
make_sparse_copies
for name in $sparse_copies; do
    [ -z "$(svn status -q "$name")" ] || { wrong=$((wrong + 1)); echo "$name: SVN STATUS PRINTS SOMETHING"; }
    "$SVNAUDIT" check sparse.dump "$name" >got 2>errors
    same "$name" "$name.checked" got
    sed 's/^/    /' got
    # (with --texts whole the texts are compared byte by byte)
    "$SVNAUDIT" check sparse.dump "$name" --texts whole >got 2>errors
    same "$name, whole texts" "$name.checked" got
    [ -s "$name.refused" ] || continue
    for question in report update calls nodes; do
        refused "$question of $name" "$(cat "$name.refused")" "$SVNAUDIT" $question sparse.dump "$name" --allow-untrue
    done
done
# a folder is a copy of its own, whatever else of the copy is sparse
"$SVNAUDIT" check sparse.dump grown/d/s grown/e excluded/d mixed_depths/d >got 2>&1
printf '%s\n' 'grown/d/s: true: 2 nodes, r3' 'grown/e: true: 3 nodes, r3, 1 directory sparse' 'excluded/d: true: 7 nodes, r2, 1 entry excluded' \
    'mixed_depths/d: true: 4 nodes, r3, 1 directory sparse' >wanted
same 'folders of sparse copies' wanted got

echo "== packed dumps, and svnrdump's of a text of over a mebibyte"
gzip -c dump >dump.gz
refused 'a packed dump' 'svnaudit: dump.gz: this is packed by gzip: unpack it first' "$SVNAUDIT" check dump.gz odd
svnadmin create big.repo; svn -q checkout "file://$PWD/big.repo" big
head -c 1500000 /dev/zero >big/f; svn -q add big/f; svn -q commit -m one big; svn -q update big; svnrdump dump -q "file://$PWD/big.repo" >big.dump
# (each refusal but the last says what to try)
offset=$(grep -abo '^Node-path: f' big.dump | cut -d: -f1) length=$(grep -a '^Text-content-length: ' big.dump | cut -d' ' -f2)
refused 'a text that is too long' "svnaudit: big.dump: byte $offset: r1 f: text of $length bytes, the most is 1048576 (try --texts sha1)" "$SVNAUDIT" check big.dump big --texts whole
refused 'a text without its SHA-1 checksum' "svnaudit: big.dump: byte $offset: r1 f: a text delta without the SHA-1 checksum of its text (try --texts md5)" "$SVNAUDIT" check big.dump big
"$SVNAUDIT" check big.dump big --texts md5 >got 2>&1
echo 'big: true: 2 nodes, r1' >wanted
same 'a text by MD5' wanted got

echo "== refusals"
refused 'no copy' "svnaudit: repo: no working copy" "$SVNAUDIT" check dump repo
refused 'a repository in place of a dump' 'svnaudit: repo: this is a folder: of a repository `svnadmin dump -q repo` writes the dump' "$SVNAUDIT" check repo odd
refused 'a word that is no revision' 'svnaudit: r2x: no revision: it is a number, r and a number, or HEAD' "$SVNAUDIT" show dump r2x
refused 'no folder' "svnaudit: nowhere: No such file or directory (os error 2)" "$SVNAUDIT" check dump nowhere
refused 'another repository' "svnaudit: lost_row: the working copy is of repository $(svnlook uuid lost_row.repo), not of $(svnlook uuid repo)" "$SVNAUDIT" check dump lost_row
refused 'an untrue copy' "svnaudit: lost_row: untrue: b: r1 has y at b, which the copy lacks (see --allow-untrue)" "$SVNAUDIT" report lost_row.dump lost_row
checkout odd trunk 4
text=$(cd odd/.svn/pristine && find . -size +0 -name '*.svn-base' | LC_ALL=C sort | head -1); sum=$(basename "$text" .svn-base); text=odd/.svn/pristine/$text
file=$(sqlite3 odd/.svn/wc.db "select local_relpath from nodes where op_depth = 0 and checksum = '\$sha1\$$sum' order by rowid limit 1")
cp "$text" kept
: >"$text" 2>/dev/null || { chmod u+w "$text"; : >"$text"; }
refused 'an empty pristine text' "svnaudit: odd: $file: pristine text \$sha1\$$sum: the file is empty" "$SVNAUDIT" check dump odd
echo other >"$text"
refused 'another pristine text' "svnaudit: odd: $file: pristine text \$sha1\$$sum: the file has another SHA-1 checksum" "$SVNAUDIT" check dump odd
rm -f "$text"
refused 'no pristine text' "svnaudit: odd: $file: pristine text \$sha1\$$sum: No such file or directory (os error 2)" "$SVNAUDIT" check dump odd
cp kept "$text"
echo journal >odd/.svn/wc.db-journal
refused 'a journal' 'svnaudit: odd: the database has a journal: a client is at work, or was cut off, and `svn cleanup` comes first' "$SVNAUDIT" check dump odd
: >odd/.svn/wc.db-journal
client update -q -r 4 --set-depth files odd/lib
refused 'another depth' "svnaudit: odd: lib: a directory of another depth than infinity" "$SVNAUDIT" update dump odd
sqlite3 odd/.svn/wc.db "update nodes set depth = 'unknown' where local_relpath = 'lib'"
refused 'no depth' "svnaudit: odd: lib: a directory of another depth than infinity" "$SVNAUDIT" check dump odd
checkout odd trunk 4; client update -q --set-depth exclude odd/lib
refused 'an excluded node' "svnaudit: odd: lib: an excluded node" "$SVNAUDIT" update dump odd
sqlite3 odd/.svn/wc.db 'pragma user_version = 29'
refused 'another format' "svnaudit: odd: working copy format 29; format 31 is read" "$SVNAUDIT" check dump odd
printf 'no database' >odd/.svn/wc.db
refused 'no database' "svnaudit: odd: not a database of SQLite 3" "$SVNAUDIT" check dump odd

end
