# A history with all that a dump can say, made by the client: what dump_both_ways.sh and working_copies.sh share.
#
# make_history REPO   makes the repository, in a folder that isn't there yet; it works in the current folder
#
# It has copies with changes in them and of mixed revisions, moves, replaces with and without history, swaps, properties that change and go, empty and
# binary values and files, names with all signs that the client takes, files that were touched, revisions without a change, and one without properties.

# one more revision, which changes nothing
empty_revision() {
    printf 'SVN-fs-dump-format-version: 2\n\nRevision-number: 1\nProp-content-length: 10\nContent-length: 10\n\nPROPS-END\n\n' |
        svnadmin load -q "$1"
}

make_history() {
    local repo=$1 url=file://$PWD/$1 name
    svnadmin create "$repo"
    cc() { svn -q commit -m "$1" copy && svn -q update copy; }
    mucc() { svnmucc -m change -U "$url" "$@" >/dev/null; }
    svn -q mkdir -m layout "$url/trunk" "$url/branches" "$url/tags"
    svn -q checkout "$url" copy

    mkdir -p copy/trunk/lib/sub copy/trunk/odd
    printf 'int main;\n' >copy/trunk/a.c
    printf 'one\n' >copy/trunk/lib/one
    printf 'two' >copy/trunk/lib/sub/two
    : >copy/trunk/empty
    python3 -c 'import sys; sys.stdout.buffer.write(bytes(range(256)))' >copy/trunk/binary
    printf 'Node-path: x\nNode-action: delete\n\n\nPROPS-END\n' >copy/trunk/like_a_dump
    for name in 'a b' 'two  blanks' ' front' 'ü' '日本' 'per%cent' 'quote"' "tick'" 'at@2' 'back\slash' 'semi;colon' '#hash' '-dash' '+plus' 'a&b<c>' '%20' '...'; do
        printf '%s' "$name" >"copy/trunk/odd/$name"
    done
    svn -q add copy/trunk/a.c copy/trunk/lib copy/trunk/empty copy/trunk/binary copy/trunk/like_a_dump copy/trunk/odd
    cc files

    svn -q propset svn:eol-style native copy/trunk/a.c
    svn -q propset svn:keywords 'Id Rev' copy/trunk/a.c
    svn -q propset svn:executable yes copy/trunk/lib/one
    svn -q propset p '' copy/trunk/lib copy/trunk/empty
    printf '\000\001K 1\nV 2\n\377' >value && svn -q propset binary -F value copy/trunk/binary
    printf 'two\nlines\n' >value && svn -q propset note -F value copy/trunk copy/trunk/lib/sub/two
    svn -q propset where root copy
    svn -q propset svn:ignore '*.o' copy/trunk
    cc properties

    svn -q copy -m branch "$url/trunk" "$url/branches/1.x" && svn -q update copy
    printf 'int other;\n' >copy/branches/1.x/a.c
    svn -q propset p other copy/branches/1.x/lib
    cc branch_change
    svn -q copy -r 2 copy/trunk copy/branches/early
    printf 'int early;\n' >copy/branches/early/a.c
    svn -q remove copy/branches/early/lib/sub
    svn -q propdel -q where copy
    cc copy_with_changes
    svn -q move copy/trunk/lib copy/trunk/library
    svn -q move copy/trunk/library/one copy/trunk/library/uno
    printf 'moved\n' >>copy/trunk/library/uno
    cc move

    # a copy of mixed revisions
    svn -q update -r 3 copy/trunk/odd
    svn -q copy copy/trunk copy/tags/mixed
    cc mixed
    # replaces, with history and without, of a file by a directory and the other way
    mucc rm trunk/a.c cp 2 trunk/a.c trunk/a.c
    mucc rm trunk/empty mkdir trunk/empty
    printf 'a file again\n' >value
    mucc rm trunk/empty put value trunk/empty
    mucc rm trunk/library cp HEAD branches/1.x/lib trunk/library
    # a swap
    mucc rm trunk/a.c cp HEAD trunk/binary trunk/a.c rm trunk/binary cp HEAD trunk/a.c trunk/binary
    empty_revision "$repo"
    # a file that is written with the text that it has
    svn cat "$url/trunk/empty" >value && mucc put value trunk/empty
    empty_revision "$repo"
    # the root, copied into itself
    mucc cp HEAD "$url" tags/all
    # what was removed comes back
    mucc rm trunk
    mucc cp 17 trunk trunk
    svn -q update copy
    svn -q propset note 'of copy' copy/tags/all/trunk copy/trunk/library
    svn -q propdel -q p copy/trunk/library
    cc after
    # a revision whose own properties are gone
    svnadmin delrevprop "$repo" -r 5 svn:log 2>/dev/null
    svnadmin delrevprop "$repo" -r 5 svn:date 2>/dev/null
    svnadmin delrevprop "$repo" -r 5 svn:author 2>/dev/null
    rm -rf copy value
    [ "$(svnlook youngest "$repo")" = 20 ] || { echo "the history wasn't made as it is written" >&2; return 1; }
}
