#!/bin/bash
# Makes crates/test_real_data/data/dumps anew from three dumps of Subversion that lie there: features.dump, with each kind of record; random.dump, by
# svn_fs driven at random; and restored.dump, of a repository that was restored from a backup. From these Subversion makes
#
#   deltas.dump   features, by `svnadmin dump --deltas`
#   remote.dump   random, by `svnrdump dump`, which gives no SHA-1 checksums
#   gaps.dump     revisions 0 to 7 of features without `branches`, by `svndumpfilter`: revision 2 is missing, and headers come in any order
#
# and for each dump what it has in each revision, one after another: NAME.sha1 and NAME.md5 with texts as their checksums, NAME.whole, and NAME.lines,
# which says what is one node in several places and revisions. They are Subversion's own, printed by trees.py and lines.py. Nothing but the order of headers
# in gaps.dump changes where Subversion is 1.14 and nothing was wrong; remote.sha1, which says why that dump isn't loaded so, is written by hand.
#
# It needs Debian's package `subversion` and python3.
set -eo pipefail
. "$(dirname "${BASH_SOURCE[0]}")/room.sh"
needs python3
data=$top/crates/test_real_data/data/dumps

# trees NAME REPOSITORY LAST WORDS..: what revisions 0 to LAST have
trees() {
    local name=$1 repo=$2 last=$3 rev
    shift 3
    for rev in $(seq 0 "$last"); do
        "$here/trees.py" "$room/$repo" "$rev" "$@" >>"$name.sha1"
        "$here/trees.py" "$room/$repo" "$rev" --md5 "$@" >>"$name.md5"
        "$here/trees.py" "$room/$repo" "$rev" --whole "$@" >>"$name.whole"
    done
    "$here/lines.py" "$room/$repo" "$last" "$@" >"$name.lines"
}

for name in features random restored; do
    svnadmin create $name
    svnadmin load -q --bypass-prop-validation $name <"$data/$name.dump"
    trees $name $name "$(svnlook youngest $name)"
done
svnadmin dump -q --deltas features >deltas.dump
cp features.sha1 deltas.sha1
cp features.md5 deltas.md5
cp features.whole deltas.whole
cp features.lines deltas.lines
svnrdump dump -q "file://$room/random" >remote.dump
cp random.md5 remote.md5
cp random.whole remote.whole
cp random.lines remote.lines
svnadmin dump -q -r 0:7 features | svndumpfilter exclude --drop-all-empty-revs --quiet branches >gaps.dump
trees gaps features 7 --without branches
cp -- *.dump *.sha1 *.md5 *.whole *.lines "$data"
