#!/bin/bash
# Histories go both ways: one that Subversion made is dumped in each way that it has, and `svnaudit show` prints each of its revisions as Subversion lists
# it; and one that a script makes is written by `svnaudit write`, loaded by `svnadmin load`, and Subversion lists each revision as `svnup` shows it.
#
# It needs Debian's package `subversion`, python3, for random histories `python3-subversion` too, and two programs as `tools/prove svnaudit svnup`
# builds them: crates/svnaudit/out/svnaudit and crates/svnup/out/svnup, or those that the variables SVNAUDIT and SVNUP name. RANDOM_HISTORIES says how
# many histories are made at random, by default 6. It works in a folder of its own, which goes at the end, and is no part of the gate. The last line
# counts what differs.
. "$(dirname "${BASH_SOURCE[0]}")/room.sh"
. "$here/dump_history.sh"
needs python3
needs_built svnaudit svnup

# says WHAT LINE COMMAND..: whether a command is refused by one line, with status 2
says() {
    local what=$1 line=$2 status
    shift 2
    "$@" >/dev/null 2>got
    status=$?
    printf '%s\n' "$line" >wanted
    same "$what" wanted got
    [ $status = 2 ] || { wrong=$((wrong + 1)); echo "$what: STATUS $status"; }
}

echo "== Subversion's history, shown"
make_history repo || exit 1
svnadmin dump -q repo >plain.dump
svnadmin dump -q --deltas repo >deltas.dump
svnrdump dump -q "file://$room/repo" >remote.dump
last=$(svnlook youngest repo)
for rev in $(seq 0 "$last"); do
    for how in sha1 md5 whole; do
        "$here/trees.py" "$room/repo" "$rev" $([ $how = sha1 ] || echo --$how) >wanted
        for dump in plain deltas remote; do
            # (svnrdump gives MD5 alone, so no text can be told by its SHA-1 unread)
            [ $dump.$how = remote.sha1 ] && continue
            "$SVNAUDIT" show --texts $how $dump.dump "$rev" >got
            same "$dump r$rev $how" wanted got
        done
    done
done
for path in trunk branches/1.x tags/all/trunk/odd; do
    "$here/trees.py" "$room/repo" 20 $path >wanted
    svnadmin dump -q repo | "$SVNAUDIT" show - 20 "/$path/" >got
    same "$path" wanted got
done
printf '. file 3 trunk/a.c int%%20main;%%0A\n. prop svn:eol-style native\n. prop svn:keywords Id%%20Rev\n' >wanted
"$SVNAUDIT" show plain.dump 3 trunk/a.c --texts whole >got 2>/dev/null
same "a file" wanted got
says "no such revision" "svnaudit: plain.dump: there is no r21: the last is r20" "$SVNAUDIT" show plain.dump 21
says "no such path" "svnaudit: plain.dump: r20: nothing is at trunk/none%20at%20all" "$SVNAUDIT" show plain.dump 20 'trunk/none at all'
echo "$compared compared, $wrong wrong"

echo "== a history with gaps, and a long text"
# (of a revision without properties svndumpfilter writes what svnadmin doesn't load either)
echo again >log && svnadmin setrevprop repo -r 5 svn:log log
svnadmin dump -q repo | svndumpfilter exclude --drop-all-empty-revs --quiet branches/early >gaps.dump
for rev in $(seq 0 "$last"); do
    "$here/trees.py" "$room/repo" "$rev" --without branches/early >wanted
    [ "$rev" -gt 16 ] && grep -v '^tags/all/branches/early' wanted >less && mv less wanted
    "$SVNAUDIT" show gaps.dump "$rev" >got
    same "gaps r$rev" wanted got
done
svnadmin create long
head -c 3145728 /dev/zero | tr '\0' x >big.bin
svnmucc -m long -U "file://$room/long" mkdir trunk put big.bin 'trunk/a big.bin' >/dev/null
svnadmin dump -q long >long.dump
"$here/trees.py" "$room/long" 1 >wanted
"$SVNAUDIT" show long.dump 1 >got
same "long text" wanted got
at=$(grep -abo 'Node-path: trunk/a big.bin' long.dump | cut -d: -f1)
says "long text" "svnaudit: long.dump: byte $at: r1 trunk/a%20big.bin: text of 3145728 bytes, the most is 1048576 (try --texts sha1)" \
    "$SVNAUDIT" show --texts whole long.dump 1
echo "$compared compared, $wrong wrong"

echo "== ${RANDOM_HISTORIES:=6} random histories"
if /usr/bin/python3 -c 'import svn.fs' 2>/dev/null; then
    for seed in $(seq "$RANDOM_HISTORIES"); do
        "$here/random_history.py" "$seed" 12 "random$seed" || { wrong=$((wrong + 1)); continue; }
        svnadmin dump -q "random$seed" >plain.random
        svnadmin dump -q --deltas "random$seed" >deltas.random
        for rev in $(seq 0 12); do
            "$here/random_history.py" --show "random$seed" "$rev" >wanted
            for dump in plain deltas; do
                "$SVNAUDIT" show --texts whole $dump.random "$rev" >got
                same "random history $seed, $dump r$rev" wanted got
            done
        done
        rm -rf "random$seed"
    done
    echo "$compared compared, $wrong wrong"
else
    echo "    passed over: this needs Debian's package python3-subversion"
fi

echo "== a script's history, in Subversion"
cat >all.script <<'SCRIPT'
# a layout
mkdir trunk
mkdir branches
mkdir trunk/lib
put trunk/lib/a.c int%20main;%0A
put trunk/lib/b.c ""
put trunk/odd%20name%20%C3%BC%25 %00%01%02%FE%FF%0D%0AK%203%0AV
commit
prop . owner all%20of%20us
prop trunk/lib svn:ignore *.o%0A
prop trunk/lib/a.c empty ""
prop trunk/lib/b.c binary %00%FF
prop trunk/lib/b.c svn:eol-style native
commit
copy 2 trunk branches/1.x
put branches/1.x/lib/a.c int%20other;%0A
unprop branches/1.x/lib svn:ignore
commit
# a revision without a change
commit
remove trunk/lib/b.c
mkdir trunk/lib/b.c
copy 1 trunk/lib/a.c trunk/lib/b.c/a.c
commit
remove trunk
copy 3 branches/1.x trunk
remove trunk/lib/a.c
put trunk/lib/a.c new
commit
put trunk/lib/a.c new
prop trunk/lib/b.c binary other
commit
copy 6 . branches/all
remove trunk
commit
copy 6 trunk trunk
unprop . owner
checkout 3
show
commit
SCRIPT
cat >wanted <<'LOG'
r1
   A /branches
   A /trunk
   A /trunk/lib
   A /trunk/lib/a.c
   A /trunk/lib/b.c
   A /trunk/odd name ü%
r2
   M /
   M /trunk/lib
   M /trunk/lib/a.c
   M /trunk/lib/b.c
r3
   A /branches/1.x (from /trunk:2)
   M /branches/1.x/lib
   M /branches/1.x/lib/a.c
r4
r5
   R /trunk/lib/b.c
   A /trunk/lib/b.c/a.c (from /trunk/lib/a.c:1)
r6
   R /trunk (from /branches/1.x:3)
   R /trunk/lib/a.c
r7
   M /trunk/lib/a.c
   M /trunk/lib/b.c
r8
   A /branches/all (from /:6)
   D /trunk
r9
   M /
   A /trunk (from /trunk:6)
LOG
# load NAME: writes a script's history and loads it into a repository of that name; whether its log is the wanted one
load() {
    "$SVNAUDIT" write "$1.script" >"$1.dump"
    svnadmin create "$1" && svnadmin load -q "$1" <"$1.dump"
    svn log -qv -r 1:HEAD "file://$room/$1" | grep -v '^---\|^Changed paths:' | sed 's/^\(r[0-9]*\) .*/\1/' >got
    same "svn log of $1" wanted got
}
load all
# paths that are changed more than once in a revision
cat >twice.script <<'SCRIPT'
mkdir d
put d/f one
put d/f two
commit
mkdir tmp
put tmp/x y
remove tmp
copy 1 d e
remove e/f
copy 1 d/f e/g
put e/g other
copy 1 d d/inner
remove d/f
commit
remove e
put e file
prop e p 1
unprop e p
prop e p 2
commit
SCRIPT
cat >wanted <<'LOG'
r1
   A /d
   A /d/f
r2
   D /d/f
   A /d/inner (from /d:1)
   A /e (from /d:1)
   D /e/f
   A /e/g (from /d/f:1)
r3
   R /e
LOG
load twice

# what `svnup` shows of each revision that a script commits
compare_script() {
    local name=$1 repo=$2 rev
    for rev in $(seq 0 "$(svnlook youngest "$repo")"); do
        "$here/trees.py" "$room/$repo" "$rev" --whole >wanted
        { grep -E '^ *(mkdir|put|prop|unprop|remove|copy|commit)' "$name.script"; echo "checkout $rev"; echo show; } |
            "$SVNUP" | sed '1,/^ok$/d' >got
        same "$name r$rev in svnup" wanted got
        svnadmin dump -q "$repo" | "$SVNAUDIT" show --texts whole - "$rev" >got
        same "$name r$rev, dumped again" wanted got
    done
}
compare_script all all
compare_script twice twice
for script in "$top"/examples/*.script; do
    name=$(basename "$script" .script)
    cp "$script" "$name.script"
    [ $name = properties_and_copies ] && continue
    "$SVNAUDIT" write "$name.script" >"$name.dump" 2>got
    : >wanted
    same "$name, written" wanted got
    svnadmin create "$name" && svnadmin load -q "$name" <"$name.dump"
    compare_script "$name" "$name"
done
says "a script with a commit that is refused" "svnaudit: properties_and_copies.script: line 38: there is no such revision" \
    "$SVNAUDIT" write properties_and_copies.script
printf 'put f a\ncommit\ncheckout 1\nput f/x a\ncommit\n' >bad.script
says "a refused change" "svnaudit: bad.script: line 4: a file is where a directory is needed" "$SVNAUDIT" write bad.script
printf 'put f a\ncommit\n\nput f\n' >bad.script
says "a bad line" "svnaudit: bad.script: line 4: bad line" "$SVNAUDIT" write bad.script
end
