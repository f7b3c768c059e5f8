#!/bin/bash
# Makes crates/test_real_data/data/told anew: databases of working copies with pages of 512 bytes, which are the smallest, dumps, and for each row NAME of
# crates/test_real_data/src/copies/told.rt NAME.told, what must be told of it. What is told of folders that are gone is what the client makes of them.
#
# It needs Debian's packages `subversion` and `sqlite3`. Made anew, the data has other dates and other UUIDs.
set -eo pipefail
. "$(dirname "${BASH_SOURCE[0]}")/room.sh"
needs sqlite3
data=$top/crates/test_real_data/data/told

# database COPY FILE
database() { sqlite3 "$1/.svn/wc.db" "pragma page_size = 512; vacuum into '$2'"; }

# told NAME LINE..
told() {
    local name=$1
    shift
    printf '%s\n' "$@" >"$name.told"
}

# a dump that begins with revision 2, and copies of revisions 1 and 3
svnadmin create late.repo
url=file://$PWD/late.repo
for name in d e f; do svn -q mkdir -m "$name" "$url/$name"; done
svnadmin dump -q -r 2:3 late.repo >late.dump 2>notes
svn -q checkout -r 1 "$url" early; database early early.db
svn -q checkout "$url" late; database late late.db
told early 'svnaudit: early: the dump begins with r2, and the copy has nodes of revisions before'
told late 'late: true: 4 nodes, r3, properties of the root as far as the dump tells them'
told late_folder 'late_folder: true: 1 nodes, r3'
# the same of another UUID
svnadmin hotcopy -q late.repo mirror; svnadmin setuuid mirror
svnadmin dump -q mirror >mirror.dump
told mirror 'mirror: true: 4 nodes, r3, whatever its UUID'
told other_uuid "svnaudit: other_uuid: the working copy is of repository $(svnlook uuid late.repo), not of $(svnlook uuid mirror)"
# a dump that leaves out what revision 4 set on the root
svn -q propset note kept late; svn -q commit -m 4 late; svn -q mkdir -m 5 "$url/g"; svn -q update late
svnadmin dump -q -r 5:5 late.repo >later.dump 2>notes
database late later.db
told later 'svnaudit: later: the dump begins with r5, and may leave out properties of the root that the copy has'

# folders that are gone in the last revision: one of a copy, a whole copy, and a switched one
svnadmin create gone.repo
url=file://$PWD/gone.repo
svn -q mkdir --parents -m 1 "$url/d/e" "$url/t/x"
svn -q checkout "$url" gone; echo f >gone/d/f; svn -q add gone/d/f; svn -q commit -m 2 gone
svn -q update gone; svn -q checkout "$url/t" gone.t; svn -q copy -m 3 "$url/t" "$url/s"; svn -q update gone; svn -q switch "$url/t" gone/s
svn -q rm -m 4 "$url/d" "$url/t"; svnadmin dump -q gone.repo >gone.dump
database gone gone.db; database gone.t gone_whole.db
for name in gone_whole gone_switched; do told $name "svnaudit: $name: the target path does not exist"; done
for copy in gone.t gone/s; do svn update -q $copy >notes 2>&1 && exit 1; grep -q "E160005: Target path '/t' does not exist" notes; done
rev=$(svnversion -n gone/d)
svn update gone/d | sed -n 's|^D    gone/d$|D    .|p' >gone_update.told
told gone_calls 'set_target_revision 4' "open_root $rev #0" "delete_entry d $rev #0" 'close_directory #0' 'close_edit'
sqlite3 gone/.svn/wc.db "select '. ' || presence from nodes where local_relpath = 'd'" >gone_nodes.told

rm -rf "$data"
mkdir "$data"
cp -- *.dump *.db *.told "$data"
