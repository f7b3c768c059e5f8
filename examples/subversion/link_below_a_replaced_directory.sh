#!/bin/bash
# A switched directory is below a directory that is replaced. Subversion follows the switch in the new directory too, and
# records what it puts there as ordinary: the copy is false, `svn status` finds nothing, and a commit fails.
. "$(dirname "$0")/beside.sh"
mkdir -p other/d/s other/b; echo a >other/b/y; svn -q add other/d other/b; commit
svn -q remove other/d; commit
mkdir -p other/d/s; svn -q add other/d; commit
svn -q checkout -r1 "$url" wc
run svn switch -q --ignore-ancestry -r1 "$url/b@1" wc/d/s
run svn update wc
compare 3
echo change >>wc/d/s/y
run svn commit -m change wc
project <<'SCRIPT'
mkdir d
mkdir d/s
mkdir b
put b/y a
commit
remove d
commit
mkdir d
mkdir d/s
commit
checkout 1
switch d/s b 1
update 3
show
SCRIPT
leaves <<'LINES'
. dir 3 .
b dir 3 b
b/y file 3 b/y a
d dir 3 d
d/s dir 3 d/s
LINES
end
