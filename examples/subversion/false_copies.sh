# Working copies that aren't true of their repositories, though `svn status -q` prints nothing of them: what working_copies.sh and copy_data.sh share.
#
# make_false_copies   makes, in the current folder, for each NAME that is in the list `false_copies` a working copy NAME, the dump NAME.dump of its
#                     repository, and NAME.untrue: what `svnaudit check` must say of it
#
# The first two are made by `svn update` alone, the third by a repository that is restored from a backup, the others by damage to the database.
false_copies="another_node replaced_directory restored wrong_revision lost_row odd_property"

# repository NAME: an empty one, and a copy to work in
repository() {
    svnadmin create "$1.repo"
    url=file://$PWD/$1.repo
    svn -q checkout "$url" "$1.work"
}

# commit NAME: what was done in the copy to work in
commit_in() { svn -q commit -m change "$1.work" && svn -q update "$1.work"; }

# ended NAME LINE..: the dump, and what is untrue
ended() {
    local name=$1
    shift
    svnadmin dump -q "$name.repo" >"$name.dump"
    printf '%s\n' "$@" >"$name.untrue"
}

# a path is switched to one that was deleted and made anew
another_node() {
    repository $1
    mkdir $1.work/a $1.work/b; echo a >$1.work/a/x; echo b >$1.work/b/y; svn -q add $1.work/a $1.work/b; commit_in $1
    svn -q remove $1.work/b; commit_in $1
    mkdir $1.work/b; echo new >$1.work/b/z; svn -q add $1.work/b; commit_in $1
    svn -q checkout -r1 "$url" $1
    svn switch -q --ignore-ancestry -r1 "$url/b@1" $1/a
    svn -q update $1
    ended $1 'a: r3 has x at a, which the copy lacks' 'a/z: r3 has nothing at a/z'
}

# a switched path is below a directory that is replaced
replaced_directory() {
    repository $1
    mkdir -p $1.work/d/s $1.work/b; echo a >$1.work/b/y; svn -q add $1.work/d $1.work/b; commit_in $1
    svn -q remove $1.work/d; commit_in $1
    mkdir -p $1.work/d/s; svn -q add $1.work/d; commit_in $1
    svn -q checkout -r1 "$url" $1
    svn switch -q --ignore-ancestry -r1 "$url/b@1" $1/d/s
    svn -q update $1
    ended $1 'd/s/y: r3 has nothing at d/s/y'
}

# the repository is restored from a backup, and committed to again
restored() {
    repository $1
    mkdir $1.work/d; svn -q add $1.work/d; commit_in $1
    svnadmin hotcopy -q $1.repo $1.backup
    mkdir $1.work/d/s; svn -q add $1.work/d/s; commit_in $1
    echo x >$1.work/x; svn -q add $1.work/x; commit_in $1
    svn -q checkout "$url" $1
    rm -rf $1.repo $1.work; mv $1.backup $1.repo
    svn -q checkout "$url" $1.work
    mkdir $1.work/d/other; svn -q add $1.work/d/other; commit_in $1
    echo x >$1.work/x; svn -q add $1.work/x; commit_in $1
    svn -q update $1
    ended $1 'd: r3 has other at d, which the copy lacks' 'd/s: r3 has nothing at d/s'
}

# a revision in the database at which the path wasn't there yet
wrong_revision() {
    repository $1
    echo f >$1.work/f; svn -q add $1.work/f; commit_in $1
    mkdir $1.work/d; svn -q add $1.work/d; commit_in $1
    svn -q checkout "$url" $1
    sqlite3 $1/.svn/wc.db "update nodes set revision = 1 where local_relpath = 'd'"
    ended $1 'd: r1 has nothing at d'
}

# a row of the database is lost
lost_row() {
    repository $1
    mkdir $1.work/b; echo y >$1.work/b/y; svn -q add $1.work/b; commit_in $1
    svn -q checkout "$url" $1
    sqlite3 $1/.svn/wc.db "delete from nodes where local_relpath = 'b/y'"
    rm $1/b/y
    ended $1 'b: r1 has y at b, which the copy lacks'
}

# a property in the database that the repository hasn't
odd_property() {
    repository $1
    mkdir $1.work/d; svn -q add $1.work/d; commit_in $1
    svn -q checkout "$url" $1
    sqlite3 $1/.svn/wc.db "update nodes set properties = cast('(p v)' as blob) where local_relpath = 'd'"
    ended $1 'd: r1 has another p at d'
}

make_false_copies() {
    local name
    for name in $false_copies; do
        $name $name
    done
}
