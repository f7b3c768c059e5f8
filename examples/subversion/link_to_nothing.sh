#!/bin/bash
# The target of a switch is gone. Subversion deletes the path, and adds the ordinary node by the next update only. So an update
# that is stopped and resumed leaves another copy than one that isn't.
. "$(dirname "$0")/beside.sh"
mkdir other/a other/b; echo a >other/a/x; echo b >other/b/y; svn -q add other/a other/b; commit
svn -q remove other/b; commit
svn -q checkout -r1 "$url" wc
run svn switch -q --ignore-ancestry -r1 "$url/b@1" wc/a
run svn update wc
compare 2
run svn update wc
compare 2
project <<'SCRIPT'
mkdir a
put a/x a
mkdir b
put b/y b
commit
remove b
commit
checkout 1
switch a b 1
update 2
show
SCRIPT
leaves <<'LINES'
. dir 2 .
a dir 2 a
a/x file 2 a/x a
LINES
end
