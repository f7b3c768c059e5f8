#!/bin/bash
# The stock client with `svnread` at the other end of its tunnel, beside the same client with `svnserve` there, on one history: what each command prints, and
# what the working copies have, row by row of their databases, text by text, file by file. Commands: checkout, update (of mixed revisions, of one entry, to older
# revisions), switch, export, list, cat, info, log, proplist, propget, diff, status -u, merge. Drives that stop after each number of calls leave copies that
# `svn cleanup` and the next update complete.
#
# It needs Debian's packages `subversion` and `sqlite3`, python3, for random histories `python3-subversion` too, and `svnread` as `tools/prove svnread` builds it: crates/svnread/out/svnread, or the program that
# the variable SVNREAD names. RANDOM_SERVED says how many commands there are on histories at random, by default 60, and STOPS how many stops there are, by default
# 40. It works in a folder of its own, which goes at the end, and is no part of the gate. The last line counts what differs.
. "$(dirname "${BASH_SOURCE[0]}")/room.sh"
. "$here/dump_history.sh"
needs sqlite3 python3 svnserve
needs_built svnread
: "${RANDOM_SERVED:=60}" "${STOPS:=40}"
url=svn+it://host/repo

# tunnel FOLDER COMMAND: a client's configuration in which `svn+it` is that command
tunnel() {
    mkdir -p "$1"
    printf '[tunnels]\nit = %s\n' "$2" >"$1/config"
    printf '[global]\nstore-passwords = no\n' >"$1/servers"
}
printf '#!/bin/sh\nexec svnserve -t -r %s\n' "$room" >stock
chmod +x stock
tunnel theirs.conf "$room/stock"
tunnel ours.conf "$SVNREAD --dump $room/dump --root repo"

# client WHOSE WORDS..: the client in the folder of one side
client() {
    local whose=$1
    shift
    (cd "$whose" && svn --non-interactive --config-dir "../$whose.conf" "$@" 2>&1)
}

# copy_rows COPY: what a copy has, without texts that no node has
copy_rows() {
    [ -d "$1/.svn" ] || { [ -e "$1" ] && (cd "$1" && find . -type f | LC_ALL=C sort | xargs -r -d '\n' sha1sum); return; }
    rm -rf vacuumed && cp -a "$1" vacuumed && svn cleanup --vacuum-pristines vacuumed 2>/dev/null
    "$here/rows.py" vacuumed
}

# same_copies WHAT NAME: the copies, or folders, of that name. A node that was removed and copied back as it was is none to change for svnread, so the copy keeps
# its older last change; svnserve leaves some as they were, too
same_copies() {
    copy_rows "theirs/$2" >wanted
    copy_rows "ours/$2" >got
    if ! cmp -s wanted got && { "$here/stale_changes.py" repo got wanted || "$here/stale_changes.py" repo wanted got; }; then
        compared=$((compared + 1)) stale=$((stale + 1))
        return
    fi
    same "$1: the copy" wanted got
}
stale=0

# both WHAT WORDS..: the lines of a command on both sides, in one order; both copies `wc` afterwards, if there are some
both() {
    local what=$1
    shift
    client theirs "$@" | LC_ALL=C sort >wanted
    client ours "$@" | LC_ALL=C sort >got
    same "$what: the lines" wanted got
    [ ! -d theirs/wc ] || same_copies "$what" wc
}

fresh() { rm -rf theirs ours && mkdir theirs ours; }

make_history repo || exit 1
svnadmin dump -q repo >dump
last=$(svnlook youngest repo)

echo "== checkouts of each revision"
for rev in $(seq 0 "$last"); do
    fresh
    both "r$rev" checkout -r "$rev" "$url" wc
    both "r$rev, status" status -u -v wc
done

echo "== updates"
for way in '1 2' '2 3' '3 8' '4 20' '8 3' '17 18' '18 17' '20 2' '5 6' '16 17'; do
    set -- $way
    fresh
    both "r$1" checkout -q -r "$1" "$url" wc
    both "r$1 to r$2" update -r "$2" wc
    both "r$1 to r$2, status" status -u wc
    both "r$2 to the last" update wc
done

echo "== mixed revisions, and one entry"
fresh
both 'mixed' checkout -r 4 "$url/trunk" wc
both 'an entry back' update -r 2 wc/a.c
both 'a directory back' update -r 3 wc/lib
both 'an entry that goes' update -r 6 wc/lib
both 'mixed, status' status -u -v wc
both 'mixed to one' update -r 5 wc
both 'an entry that is new' update -r 7 wc/library
both 'mixed to the last' update wc
both 'an entry that was never there' update -r 5 wc/nothing
both 'back' update -r 4 wc

echo "== depths"
for depth in immediates infinity; do
    fresh
    both "depth $depth" checkout -r 8 --depth "$depth" "$url" wc
    # of a directory that gets deeper the client asks for all, so its properties come again, and the line of it says so
    both "depth $depth, deeper" update -q -r 8 --set-depth infinity wc
done
fresh
both 'excluded' checkout -r 8 "$url" wc
both 'excluded' update -r 8 --set-depth exclude wc/trunk
both 'excluded, updated' update -r 9 wc

echo "== switches"
fresh
both 'to switch' checkout -r 4 "$url/trunk" wc
both 'a directory' switch -r 4 "$url/branches/1.x/lib" wc/lib
both 'a file' switch -r 4 "$url/branches/1.x/a.c" wc/a.c
both 'switched, status' status -u wc
both 'switched, updated' update -r 5 wc
both 'the whole' switch -r 5 "$url/branches/1.x" wc
both 'back' switch -r 4 "$url/trunk" wc
both 'another line' switch -r 5 --ignore-ancestry "$url/branches/early" wc/lib

echo "== what needs no copy"
fresh
for path in '' /trunk /branches/1.x /tags; do
    both "list $path" list -v -R "$url$path"
    both "info $path" info "$url$path"
    both "log $path" log "$url$path"
    both "log -v $path" log -v -r "1:$last" "$url$path"
    both "log -v --stop-on-copy $path" log -v --stop-on-copy "$url$path"
    both "log -l $path" log -q -l 3 "$url$path"
    both "proplist $path" proplist -v -R "$url$path"
done
both 'log of a file' log -v "$url/trunk/library/uno@6"
both 'log with all properties' log --xml --with-all-revprops -l 2 "$url"
both 'cat' cat "$url/trunk/a.c@5" "$url/trunk/odd/at@2@4"
both 'cat of an older one' cat -r 2 "$url/trunk/a.c@4"
both 'cat of nothing' cat "$url/trunk/nothing"
both 'cat of a directory' cat "$url/trunk"
both 'propget' propget svn:ignore "$url/trunk@4"
both 'propget of a revision' propget --revprop -r 3 svn:log "$url"
both 'proplist of a revision' proplist --revprop -v -r 3 "$url"
both 'a diff' diff -r 3:5 "$url"
both 'a diff of branches' diff "$url/trunk@4" "$url/branches/1.x@4"
both 'a diff that is summed up' diff --summarize -r 2:4 "$url/trunk@4"
both 'no such revision' list -r 99 "$url"
both 'nothing there' info "$url/nothing"
for rev in 4 8 "$last"; do
    fresh
    both "export r$rev" export -r "$rev" "$url" out
    same_copies "export r$rev" out
done

echo "== changes of one's own"
fresh
both 'to merge into' checkout -r 5 "$url/branches/1.x" wc
for side in theirs ours; do echo mine >>$side/wc/a.c; done
both 'a diff of the copy' diff wc
both 'a diff with an older one' diff -r 4 wc
both 'reverted' revert -R wc
both 'a merge' merge --dry-run -c 6 "$url/trunk@6" wc

echo "== $STOPS stops"
svn -q checkout "file://$room/repo@8" -r 8 whole
cut=0
for n in $(seq "$STOPS"); do
    rm -rf ours && mkdir ours
    tunnel ours.conf "$SVNREAD --dump $room/dump --root repo --cancel-after $n"
    client ours checkout -r 8 "$url" wc >lines
    grep -q E200015 lines && cut=$((cut + 1))
    tunnel ours.conf "$SVNREAD --dump $room/dump --root repo --late-texts"
    # a client that was stopped while it adds files leaves its locks
    client ours cleanup wc >lines
    client ours update -r 8 wc >lines
    [ "$(client ours status wc)" = '' ] || { wrong=$((wrong + 1)); echo "STOPPED AFTER $n: THE STATUS ISN'T CLEAN"; }
    compared=$((compared + 1))
    diff -r -x .svn whole ours/wc >lines || { wrong=$((wrong + 1)); echo "STOPPED AFTER $n DIFFERS:"; head -5 lines; }
done
echo "    $cut of them stopped"
[ $cut = "$STOPS" ] || wrong=$((wrong + 1))
tunnel ours.conf "$SVNREAD --dump $room/dump --root repo"

echo "== a dump of deltas, whose texts are in memory"
svnadmin dump -q --deltas repo >deltas
tunnel ours.conf "$SVNREAD --dump $room/deltas --root repo"
fresh
both 'of deltas' checkout -r 4 "$url" wc
both 'of deltas, updated' update wc
both 'of deltas, cat' cat "$url/trunk/a.c@5"
both 'of deltas, list' list -v -R "$url"

echo "== texts of any length, which stay in the dump"
svnadmin create long
svn -q checkout "file://$room/long" long_copy
for len in 0 1 102399 102400 102401 1048577 5000000; do
    seq 800000 | head -c "$len" >"long_copy/$len"
done
svn -q add long_copy/* && svn -q commit -m 'long texts' long_copy
for len in 0 102400 5000000; do
    echo more >>"long_copy/$len"
done
svn -q commit -m 'longer texts' long_copy
svnadmin dump -q long >long.dump
tunnel ours.conf "$SVNREAD --dump $room/long.dump --root long"
fresh
both 'long texts' checkout -r 1 svn+it://host/long wc
both 'long texts, updated' update wc
both 'long texts, back' update -r 1 wc
for len in 0 102401 5000000; do
    both "cat of $len bytes" cat "svn+it://host/long/$len"
done
both 'long texts, list' list -v svn+it://host/long
tunnel ours.conf "$SVNREAD --dump $room/dump --root repo"

echo "== $RANDOM_SERVED commands at random, on histories at random"
python3 -c 'import svn.core' 2>/dev/null || { echo "    passed over: this needs Debian's package python3-subversion"; RANDOM_SERVED=0; }
RANDOM=3
for n in $(seq "$RANDOM_SERVED"); do
    if [ $((n % 6)) = 1 ]; then
        rm -rf repo
        "$here/random_history.py" "$n" 12 repo >/dev/null
        svnadmin dump -q repo >dump
        last=$(svnlook youngest repo)
        fresh
        both "random $n, checkout" checkout -r $((RANDOM % last + 1)) "$url" wc
        both "random $n, a date" info -r '{2099-01-01}' "$url"
        continue
    fi
    rev=$((RANDOM % last + 1))
    case $((RANDOM % 4)) in
    0) both "random $n, r$rev" update -r "$rev" wc ;;
    1)
        entry=$(cd theirs/wc && find . -path ./.svn -prune -o -mindepth 1 -print | LC_ALL=C sort | sed -n "$((RANDOM % 8 + 1))p")
        both "random $n, r$rev of '$entry'" update -r "$rev" "wc/${entry:-.}@"
        ;;
    2) both "random $n, log" log -v -r "1:$last" "$url" ;;
    3) both "random $n, status" status -u -v wc ;;
    esac
done
echo "    $stale copies have last changes that one of them left as they were"
end
