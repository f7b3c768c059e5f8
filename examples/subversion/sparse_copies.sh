# Sparse working copies, true and false, of which `svn status -q` prints nothing: what working_copies.sh and sparse_data.sh share.
#
# make_sparse_copies   makes, in the current folder, the repository sparse.repo and its dump sparse.dump; and for each NAME that is in the list `sparse_copies`
#                      a working copy NAME; NAME.checked, what `svnaudit check` must print of it; and NAME.refused, how the other commands must refuse it
#
# All files have the text `f`. The server that withholds entries is `svnserve`; the false copies are made by damage to the database.
true_sparse_copies="empty files immediates grown excluded withheld mixed_depths"
false_sparse_copies="lost_file lost_directory lost_note lost_below other_revision other_property claimed_whole withheld_lost"
sparse_copies="$true_sparse_copies $false_sparse_copies"

depth_fault='a directory of another depth than infinity'

# told NAME PATH FAULT LINE..: how the commands but for `check` refuse it, and what `check` prints
told() {
    local name=$1
    printf 'svnaudit: %s: %s: %s\n' "$name" "$2" "$3" >"$name.refused"
    shift 3
    printf "$name: %s\n" "$@" >"$name.checked"
}

# forget NAME PATH: its row of the base tree goes, and what is on the disk
forget() {
    sqlite3 "$1/.svn/wc.db" "delete from nodes where local_relpath = '$2'"
    rm -rf "${1:?}/$2"
}

make_sparse_repository() {
    svnadmin create sparse.repo
    sparse_url=file://$PWD/sparse.repo
    svn -q checkout "$sparse_url" sparse.work
    (
        cd sparse.work
        mkdir -p d/s e
        for file in d/f d/g d/s/h e/i x; do echo f >$file; done
        svn -q add d e x; svn -q commit -m one; svn -q update
        mkdir d/t; echo f >d/t/k; echo f >d/z; svn -q add d/t d/z; svn -q propset p 1 d d/f; svn -q commit -m two; svn -q update
        echo f >e/j; svn -q add e/j; svn -q propset p 2 d/f; svn -q commit -m three; svn -q update
    )
    rm -rf sparse.work
    svnadmin dump -q sparse.repo >sparse.dump
    # whoever asks the server may not read d/s and x
    printf '[general]\nanon-access = read\nauth-access = read\nauthz-db = authz\n' >sparse.repo/conf/svnserve.conf
    printf '[/]\n* = r\n[/d/s]\n* =\n[/x]\n* =\n' >sparse.repo/conf/authz
    # (svn appends words to it, which are not wanted)
    printf '#!/bin/sh\nexec svnserve -t\n' >sparse.tunnel
    chmod +x sparse.tunnel
}

sparse_checkout() { svn -q checkout "$@"; }

make_true_sparse_copies() {
    sparse_checkout --depth empty -r 2 "$sparse_url" empty
    told empty . "$depth_fault" 'true: 1 nodes, r2, 1 directory sparse'
    sparse_checkout --depth files "$sparse_url/d" files
    told files . "$depth_fault" 'true: 4 nodes, r3, 1 directory sparse'
    sparse_checkout --depth immediates "$sparse_url" immediates
    told immediates d "$depth_fault" 'true: 4 nodes, r3, 3 directories sparse'
    # directories and a file that were asked for, one after another
    sparse_checkout --depth empty "$sparse_url" grown
    svn -q update --parents grown/d/s; svn -q update --set-depth files grown/e; svn -q update grown/x
    told grown . "$depth_fault" 'true: 8 nodes, r3, 3 directories sparse'
    sparse_checkout -r 2 "$sparse_url" excluded
    svn -q update -r 2 --set-depth exclude excluded/d/s; svn -q update -r 2 --set-depth exclude excluded/x
    told excluded d/s 'an excluded node' 'true: 11 nodes, r2, 2 entries excluded'
    svn --config-option "config:tunnels:sparse=$PWD/sparse.tunnel" --non-interactive -q checkout "svn+sparse://x$PWD/sparse.repo" withheld
    told withheld d/s 'a node excluded by the server' 'true: 12 nodes, r3, 2 entries withheld'
    sparse_checkout -r 1 "$sparse_url" mixed_depths
    svn -q update --set-depth files mixed_depths/d; svn -q update -r 2 --set-depth empty mixed_depths/e; svn -q update -r 1 --set-depth exclude mixed_depths/x
    told mixed_depths e "$depth_fault" 'true: 7 nodes, r1 to r3, 2 directories sparse, 1 entry excluded'
}

make_false_sparse_copies() {
    cp -a files lost_file; forget lost_file g
    told lost_file . "$depth_fault" 'untrue: .: r3 has g at d, which the copy lacks'
    cp -a immediates lost_directory; forget lost_directory d
    told lost_directory e "$depth_fault" 'untrue: .: r3 has d at ., which the copy lacks'
    cp -a excluded lost_note; forget lost_note d/s
    told lost_note x 'an excluded node' 'untrue: d: r2 has s at d, which the copy lacks'
    cp -a grown lost_below; forget lost_below d/s/h
    told lost_below . "$depth_fault" 'untrue: d/s: r3 has h at d/s, which the copy lacks'
    cp -a files other_revision; sqlite3 other_revision/.svn/wc.db "update nodes set revision = 1 where local_relpath = 'z'"
    told other_revision . "$depth_fault" 'untrue: z: r1 has nothing at d/z'
    cp -a files other_property; sqlite3 other_property/.svn/wc.db "update nodes set properties = cast('(p v)' as blob) where local_relpath = ''"
    told other_property . "$depth_fault" 'untrue: .: r3 has another p at d'
    cp -a files claimed_whole; sqlite3 claimed_whole/.svn/wc.db "update nodes set depth = 'infinity' where local_relpath = ''"
    printf '' >claimed_whole.refused
    printf '%s\n' 'claimed_whole: untrue: .: r3 has s at d, which the copy lacks' >claimed_whole.checked
    cp -a withheld withheld_lost; forget withheld_lost x
    told withheld_lost d/s 'a node excluded by the server' 'untrue: .: r3 has x at ., which the copy lacks'
}

make_sparse_copies() {
    make_sparse_repository
    make_true_sparse_copies
    make_false_sparse_copies
}
