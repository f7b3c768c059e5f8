#!/bin/bash
# A full disk, and a folder without rights: each system call by which `svncopy checkout` and `svncopy mend` change something is made to fail once, with ENOSPC,
# EDQUOT or EACCES, which strace does. Each time one line says so, with status 2. Then a checkout has left no copy, and its own folder is cleared by `resume`; or
# the copy is the old one or the new one, row by row, or has work left, and `resume` completes it. A second run ends as one without a fault.
#
# It needs Debian's packages `subversion`, `sqlite3` and `strace`, python3, and `svncopy` as `tools/prove svncopy` builds it, or the program that the variable
# SVNCOPY names. It works in a folder of its own, which goes at the end, and is no part of the gate. The last line counts what differs.
. "$(dirname "${BASH_SOURCE[0]}")/room.sh"
needs sqlite3 python3 strace
needs_built svncopy
url=file://$room/repo

wrongly() { wrong=$((wrong + 1)); echo "$@"; }

# a repository, and a copy of what was lost when it was restored from a backup
make_repo() {
    svnadmin create repo && svn -q checkout "$url" work && mkdir -p work/d/e work/x
    echo first >work/f && echo second >work/d/g && echo kept >work/kept && echo file >work/d/e/h && echo y >work/x/y
    ln -s f work/link
    svn -q add work/f work/d work/kept work/link work/x && svn -q propset svn:executable yes work/d/g && svn -q commit -m one work
    svnadmin -q hotcopy repo backup
    echo lost >work/f && echo z >work/x/z && svn -q add work/x/z && svn -q commit -m lost work
    echo lost too >work/f && svn -q commit -m 'lost too' work && svn -q update work && svn -q checkout "$url" false
    rm -rf repo work && cp -a backup repo && svn -q checkout "$url" work
    svn -q rm work/x && svn -q commit -m half work && svn -q update work
    echo again >work/f && echo a file >work/x && mkdir work/new && echo n >work/new/n && svn -q add work/x work/new && svn -q propset p v work/d
    svn -q commit -m again work && svnadmin dump -q repo >dump
}

# rows COPY: its rows and files, but for texts that no node has
rows_of() { rm -rf seen && cp -a "$1" seen && svn cleanup --vacuum-pristines seen 2>/dev/null; "$here/rows.py" seen | sed -E '/^node /s/(, [^,]*){3}\]$/]/'; }

# faults: which call fails with what
faults='openat=EACCES mkdir=EACCES mkdir=ENOSPC write=ENOSPC write=EDQUOT rename=EACCES rename=ENOSPC symlink=ENOSPC unlink=EACCES rmdir=EACCES fsync=EIO fchmod=EPERM utimensat=EACCES'

# each FUNCTION WORD..: runs the program on a fresh folder `ours` with each call failing once, and FUNCTION looks at what it left
each() {
    local look=$1 fault call error count n status
    shift
    begin && strace -f -o trace "$SVNCOPY" "$@" >/dev/null 2>errors || wrongly "WITHOUT A FAULT: $(cat errors)"
    for fault in $faults; do
        call=${fault%=*} error=${fault#*=}
        count=$(grep -c " $call(" trace)
        for n in $(seq "$count"); do
            begin
            strace -f -o /dev/null -e trace="$call" -e inject="$call:error=$error:when=$n" "$SVNCOPY" "$@" >out 2>errors
            status=$?
            compared=$((compared + 1))
            what="$1, $call $n of $count, $error"
            # what is left to the system's closing of a file may fail without a word
            case "$status,$(wc -l <errors)" in
            2,1) failed=$((failed + 1)) ;;
            0,0) passed=$((passed + 1)) ;;
            2,0) [ "$call" = write ] || wrongly "$what: NO LINE" ;;
            *) wrongly "$what: STATUS $status: $(head -3 errors)" ;;
            esac
            $look
        done
    done
}

# after a checkout
looked_at_checkout() {
    if [ ! -d ours ] || [ ! -d ours/.svn ]; then
        none=$((none + 1))
        if [ -d ours ]; then
            "$SVNCOPY" resume ours >line 2>&1
            [ -z "$(ls -A ours)" ] || wrongly "$what: RESUME LEFT $(ls -A ours): $(cat line)"
        fi
        [ -z "$(ls -d ./*.svncopy-dump 2>/dev/null)" ] || wrongly "$what: A DUMP IS LEFT"
        "$SVNCOPY" checkout dump "$url" ours >line 2>&1 || wrongly "$what: AGAIN: $(cat line)"
    else
        there=$((there + 1))
        "$SVNCOPY" resume ours >line 2>&1 || wrongly "$what: RESUME: $(cat line)"
    fi
    rows_of ours >got
    same "$what" whole got
}

# after a mend
looked_at_mend() {
    if [ "$(sqlite3 ours/.svn/wc.db 'select count(*) from wc_lock')" = 0 ]; then
        rows_of ours >got
        if cmp -s got old; then none=$((none + 1)); else
            there=$((there + 1))
            same "$what" whole got
        fi
    else
        there=$((there + 1))
        "$SVNCOPY" resume ours >line 2>&1 || wrongly "$what: RESUME: $(cat line)"
    fi
    "$SVNCOPY" mend dump ours >line 2>&1 || wrongly "$what: AGAIN: $(cat line)"
    rows_of ours >got
    same "$what, again" whole got
}

make_repo >/dev/null || wrongly "THE COPY ISN'T MADE"
svn -q checkout "$url" fresh && rows_of fresh >whole
echo "== a checkout"
failed=0 passed=0 none=0 there=0
begin() { rm -rf ours; }
each looked_at_checkout checkout dump "$url" ours
echo "    $failed faults and $passed that changed nothing: no copy after $none, the copy after $there"
[ $failed != 0 ] && [ $none != 0 ] && [ $there != 0 ] || wrongly "NOT ALL KINDS WERE SEEN"
echo "== a mend"
failed=0 passed=0 none=0 there=0
rows_of false >old
begin() { rm -rf ours && cp -a false ours; }
each looked_at_mend mend dump ours
echo "    $failed faults and $passed that changed nothing: the old copy after $none, the new one after $there"
[ $failed != 0 ] && [ $none != 0 ] && [ $there != 0 ] || wrongly "NOT ALL KINDS WERE SEEN"
end
