# What the scripts beside this one share. Each shows a situation in which Subversion 1.14 leaves another working copy than this
# project does: first Subversion's copy, by the plain `svn` program, then this project's, by `svnup`.
#
# They need Debian's package `subversion`, and `svnup` as `tools/prove svnup` builds it: crates/svnup/out/svnup, or the program that
# the variable SVNUP names. They work in a folder of their own, which goes at the end, and are no part of the gate.
. "$(dirname "${BASH_SOURCE[0]}")/room.sh"
needs_built svnup
svnadmin create repo
url=file://$room/repo
# the copy in which the history is made; the one that is looked at is `wc`
svn -q checkout "$url" other

# commits what was done in `other`
commit() { svn -q commit -m change other && svn -q update other; }

# runs a command on the copy, and shows what it says
run() { echo "\$ $*" | sed "s|$room/||g"; "$@" 2>&1 | sed "s|$room/||g; s|^|    |"; }

# compares the copy with a fresh checkout of a revision
compare() {
    svn -q checkout -r "$1" "$url" fresh
    echo "    svnversion: $(svnversion wc); svn status: [$(svn status wc | tr '\n' ';')]"
    if diff -r -x .svn wc fresh >differences; then
        echo "    the copy is what revision $1 holds"
    else
        echo "    THE COPY IS NOT WHAT REVISION $1 HOLDS:"
        sed 's/^/        /' differences
    fi
    rm -rf fresh
}

# the same in this project: the script from standard input
project() { echo "== svnup"; "$SVNUP" >shown; sed 's/^/    /' shown; }

# what the last `show` must have printed: from standard input
leaves() { cat >wanted; sed '1,/^closed /d' shown >got; same "svnup's copy" wanted got; }
