#!/bin/bash
# The target of a switch was deleted and made anew: another node, of the same path. Subversion puts the new node in the place of
# the switched one, and records it under the ordinary path: the copy is false, and nothing says so.
. "$(dirname "$0")/beside.sh"
mkdir other/a other/b; echo a >other/a/x; echo b >other/b/y; svn -q add other/a other/b; commit
svn -q remove other/b; commit
mkdir other/b; echo new >other/b/z; svn -q add other/b; commit
svn -q checkout -r1 "$url" wc
run svn switch -q --ignore-ancestry -r1 "$url/b@1" wc/a
run svn update wc
compare 3
project <<'SCRIPT'
mkdir a
put a/x a
mkdir b
put b/y b
commit
remove b
commit
mkdir b
put b/z new
commit
checkout 1
switch a b 1
update 3
show
SCRIPT
leaves <<'LINES'
. dir 3 .
a dir 3 a
a/x file 3 a/x a
b dir 3 b
b/z file 3 b/z new
LINES
end
