#!/bin/bash
# What `test_recorded` prints of databases, as SQLite says it: the numbers of rows of those in crates/test_recorded/data/databases, which the client wrote; and the
# database that the program makes, which SQLite reads, checks and counts.
#
#   examples/subversion/stored_databases.sh [--make]
#
# With --make the databases are made anew first: a copy with properties, a link, an executable, another revision, a switched path and local changes; and one
# whose update was cut off, since its folder takes no new name, so that directories aren't complete and the client's work is left. Each is written with pages of
# 512 bytes, so that it is small. That takes root's rights, to work as another user.
#
# It needs Debian's packages `subversion`, `sqlite3` and `xxd`, and `test_recorded` as `tools/prove test_recorded` builds it: crates/test_recorded/out/test_recorded,
# or the program that the variable TEST_RECORDED names. It is no part of the gate. The last line counts what differs.
. "$(dirname "${BASH_SOURCE[0]}")/room.sh"
needs sqlite3 xxd sha1sum
needs_built test_recorded
crate=$top/crates/test_recorded
url=file://$room/repo

# small COPY NAME: the database of a copy, with small pages
small() {
    rm -f "$crate/data/databases/$2"
    sqlite3 "$1/.svn/wc.db" "pragma page_size=512; vacuum into '$crate/data/databases/$2'"
}

make_mixed() {
    svnadmin create repo
    svn mkdir -q -m 1 "$url/trunk" "$url/branches"
    svn checkout -q "$url/trunk" first
    mkdir -p first/d/e
    echo one >first/a; echo two >first/d/b; echo run >first/d/run; echo deep >first/d/e/deep; echo gone >first/d/gone
    ln -s a first/link
    svn add -q first/a first/d first/link
    svn propset -q svn:executable '*' first/d/run
    svn propset -q p $'a\nb' first/d
    svn propset -q empty '' first/a
    printf '\000\001\377)(' >bytes
    svn propset -q -F bytes bytes first/d/e
    svn commit -q -m 2 first
    svn update -q first
    svn copy -q -m 3 "$url/trunk" "$url/branches/b"
    echo more >>first/a
    svn commit -q -m 4 first
    svn update -q first
    svn delete -q first/d/gone
    svn commit -q -m 5 first
    svn update -q -r 2 first/d/b
    svn switch -q --ignore-ancestry "$url/branches/b/d/e" first/d/e
    svn lock -q first/d/run
    echo local >>first/a
    svn propset -q local yes first/d/b
    svn delete -q first/link
    svn changelist -q list first/d/run
    small first mixed_512.db
}

# a user who may not make names in a folder
other() { setpriv --reuid 65534 --regid 65534 --clear-groups env HOME=/nonexistent "$@"; }

make_interrupted() {
    chmod -R a+rwX "$room"
    other svn checkout -q -r 1 "$url/trunk" second
    chmod 555 second
    other svn update -q -r 4 second 2>errors && echo "the update wasn't cut off"
    chmod 755 second
    small second interrupted_512.db
}

if [ "${1-}" = --make ]; then
    mkdir -p "$crate/data/databases"
    make_mixed
    make_interrupted
fi

# sound WHAT DATABASE: SQLite finds nothing wrong
sound() {
    sqlite3 "$2" 'pragma integrity_check; pragma foreign_key_check' >got
    echo ok >wanted
    same "$1: soundness" wanted got
}

# counts DATABASE: the numbers of rows, and the largest number of work
counts() {
    local table
    for table in REPOSITORY WCROOT PRISTINE ACTUAL_NODE LOCK WORK_QUEUE WC_LOCK NODES EXTERNALS; do
        echo "$table $(sqlite3 "$1" "select count(*) from $table")"
    done
    echo "work so far $(sqlite3 "$1" "select ifnull((select seq from sqlite_sequence where name = 'WORK_QUEUE'), 0)")"
}

echo "== databases of the client"
: >got_stdout
while read -r name; do
    database=$crate/data/$name
    sound "$name" "$database"
    work=$(sqlite3 "$database" 'select count(*) from work_queue')
    {
        echo "$name"
        counts "$database"
        if [ "$work" = 0 ]; then echo "0 items of work"; else echo "work of a client"; fi
        echo "$(sqlite3 "$database" 'select count(*) from nodes where op_depth = 0') base nodes, read again: true"
    } >>got_stdout
done <"$crate/args"
sed '/^made: /,$d' "$crate/stdout" >wanted
same "the lines about them" wanted got_stdout

echo "== a database that is made"
"$TEST_RECORDED" hex | xxd -r -p >made.db
sound "made" "$PWD/made.db"
echo "made: $(stat -c %s made.db) bytes \$sha1\$$(sha1sum <made.db | cut -d' ' -f1), the work is read again: true" >got
grep '^made: ' "$crate/stdout" >wanted
same "its checksum" wanted got
sqlite3 made.db "select local_relpath, parent_relpath, repos_path, revision, presence, kind, cast(properties as text), checksum from nodes" >got
cat >wanted <<'END'
||trunk|7|normal|dir|( 10 svn:ignore 1 *)|
a||trunk/a|7|normal|file|( 1 p 1 *)|$sha1$271ac93c44ac198d92e706c6d6f1d84aefcfa337
d||trunk/d|7|normal|dir||
d/link|d|trunk/d/link|3|normal|file|( 11 svn:special 1 *)|$sha1$48b52bf345299cdd42018786ca89070202b362d3
d/run|d|branches/b/run|7|normal|file|( 14 svn:executable 1 *)|$sha1$271ac93c44ac198d92e706c6d6f1d84aefcfa337
part||trunk/part|7|incomplete|dir|( 10 incomplete 1 *)|
END
same "its nodes" wanted got
sqlite3 made.db "select id, cast(work as text) from work_queue; select checksum, size, refcount from pristine" >got
cat >wanted <<'END'
5|( 11 file-remove 9 gone/file)
6|( 10 dir-remove 4 gone)
7|( 11 dir-install 1 d)
8|( 12 file-install 5 d/run 1 0 1 1)
$sha1$271ac93c44ac198d92e706c6d6f1d84aefcfa337|6|2
$sha1$48b52bf345299cdd42018786ca89070202b362d3|8|1
END
same "its work and texts" wanted got
end
