#!/bin/bash
# A file below `d` was committed from this copy, so that the report has an entry for it; then others put a file in the place of
# `d`. Subversion's driver adds the file and then fails at the entry: the copy is left incomplete and locked, until it is cleaned
# up and updated once more.
. "$(dirname "$0")/beside.sh"
mkdir other/d; echo a >other/d/y; svn -q add other/d; commit
svn -q checkout "$url" wc
echo b >wc/d/y; svn -q commit -m change wc; svn -q update other
svn -q remove other/d; commit
echo file >other/d; svn -q add other/d; commit
run svn update wc
run svn update wc
run svn cleanup wc
run svn update wc
compare 4
project <<'SCRIPT'
mkdir d
put d/y a
commit
put d/y b
commit
remove d
commit
put d file
commit
checkout 1
place d/y 2
update 4
show
SCRIPT
leaves <<'LINES'
. dir 4 .
d file 4 d file
LINES
end
