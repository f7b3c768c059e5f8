#!/bin/bash
# Makes crates/test_real_data/data/sparse anew: sparse.dump, the history of a repository, and for each sparse copy NAME its database NAME.db, with pages of
# 512 bytes, which are the smallest; NAME.checked, what `svnaudit check` prints of it; and NAME.refused, how the other commands refuse it.
#
# It needs Debian's packages `subversion` and `sqlite3`. Made anew, the data has other dates and another UUID.
set -eo pipefail
. "$(dirname "${BASH_SOURCE[0]}")/room.sh"
. "$here/sparse_copies.sh"
needs svnserve sqlite3
data=$top/crates/test_real_data/data/sparse

make_sparse_copies
for name in $sparse_copies; do
    sqlite3 "$name/.svn/wc.db" "pragma page_size = 512; vacuum into '$name.db'"
done
rm -rf "$data"
mkdir "$data"
cp -- *.dump *.db *.checked *.refused "$data"
