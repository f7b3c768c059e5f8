#!/bin/bash
# Makes crates/test_real_data/data/copies anew: for each copy NAME its database NAME.db, with pages of 512 bytes, which are the smallest; NAME.dump, the history of
# its repository; and NAME.untrue, what isn't true of it. Of a copy that is true NAME.lines has what `svn update` prints, sorted, and NAME.after.db is its
# database afterwards.
#
# It needs Debian's packages `subversion` and `sqlite3`. Made anew, the data has other dates and other UUIDs.
set -eo pipefail
. "$(dirname "${BASH_SOURCE[0]}")/room.sh"
. "$here/false_copies.sh"
needs sqlite3
data=$top/crates/test_real_data/data/copies

# database COPY FILE
database() { sqlite3 "$1/.svn/wc.db" "pragma page_size = 512; vacuum into '$2'"; }

# updated NAME: a copy that is true, before and after `svn update`, and the lines of that
updated() {
    database $1 $1.db
    svn update $1 | sed -n "s|^\([ADU ][U ]   \)$1/|\1|p; s|^\([ADU ][U ]   \)$1$|\1.|p" | LC_ALL=C sort >$1.lines
    database $1 $1.after.db
    svnadmin dump -q $1.repo >$1.dump
    : >$1.untrue
}

# incomplete NAME PATHS: these directories as a cut-off update leaves them, by an expression on local_relpath
incomplete() { sqlite3 $1/.svn/wc.db "update nodes set presence = 'incomplete' where kind = 'dir' and $2"; }

make_false_copies
for name in $false_copies; do
    database $name $name.db
done

# a copy with several revisions, a switched path and one that isn't present
repository mixed
(cd mixed.work && mkdir -p lib/sub doc && echo a >lib/a && echo b >lib/sub/b && echo c >doc/c && svn -q add lib doc && svn -q propset p 1 lib/a)
commit_in mixed
(cd mixed.work && svn -q copy lib branch && echo other >branch/a)
commit_in mixed
(cd mixed.work && echo new >lib/new && svn -q add lib/new && echo changed >>lib/a && svn -q propset p 2 lib lib/a && svn -q remove doc/c && svn -q propset q 1 .)
commit_in mixed
(cd mixed.work && svn -q move lib/sub moved && echo again >branch/a && svn -q propdel p lib/a)
commit_in mixed
svn -q checkout -r 2 "$url" mixed
svn -q update -r 1 mixed/branch mixed/doc
svn switch -q --ignore-ancestry -r 2 "$url/branch/a@2" mixed/lib/a
svn -q update -r 4 mixed/lib/sub
updated mixed

# an update that was cut off: all directories but two are incomplete, and one of them has the revision that it was on its way to. Of each that has properties
# before or after, something in it changes or (`_alone`) nothing.
repository cut_off
(
    cd cut_off.work
    for directory in same same_alone other other_alone gone gone_alone gained gained_alone fewer none none_alone deep deep/none whole whole/none ahead; do
        mkdir $directory && echo a >$directory/f && svn -q add $directory
    done
    svn -q propset p 1 . same same_alone other other_alone gone gone_alone fewer deep whole ahead && svn -q propset q 1 fewer
)
commit_in cut_off
(
    cd cut_off.work
    for file in same/f other/f gone/f gained/f fewer/f none/f deep/none/f whole/none/f ahead/f; do echo b >$file; done
    svn -q propset p 2 other other_alone gained gained_alone && svn -q propset q 2 fewer && svn -q propdel p . gone gone_alone fewer deep whole ahead
)
commit_in cut_off
svn -q checkout -r 1 "$url" cut_off
incomplete cut_off "local_relpath not like 'whole%'"
sqlite3 cut_off/.svn/wc.db "update nodes set revision = 2 where local_relpath = 'ahead'"
updated cut_off

# one whose root loses its property, and nothing else changes
repository cut_off_alone
svn -q propset p 1 cut_off_alone.work
commit_in cut_off_alone
svn -q propdel p cut_off_alone.work
commit_in cut_off_alone
svn -q checkout -r 1 "$url" cut_off_alone
incomplete cut_off_alone "local_relpath = ''"
updated cut_off_alone

cp -- *.dump *.db *.untrue *.lines "$data"
