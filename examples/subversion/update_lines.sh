#!/bin/bash
# The lines of `svn update`, and those of the editor in crates/example_library, which prints them: the same history, and the same update.
. "$(dirname "${BASH_SOURCE[0]}")/beside.sh"
needs_built example_library

# what crates/example_library/src/own_editor.rt commits
first() {
    printf 'read me' >README && printf 'a file' >e && mkdir lib
    for file in a b c; do printf '%s' "$file" >"lib/$file"; done
    svn -q add README e lib && svn -q propset p 1 lib/c
}
second() {
    svn -q rm README e && svn -q commit -m half && svn -q update
    mkdir e doc && printf x >doc/x && printf abc >lib/a && printf abc >lib/c && printf d >lib/d
    svn -q add e doc lib/d && svn -q propset p 1 doc lib/b lib/d lib . && svn -q propset p 2 lib/c
}
(cd other && first) && commit
svn -q checkout -r 1 "$url" wc
(cd other && second) && commit

# Subversion took two commits for the second revision, since it replaces a file by a directory in no single one
(cd wc && svn update && svn update) | sed 's/revision 3\./revision 2./' >lines
# (the program has lines of other examples before and after it)
"$EXAMPLE_LIBRARY" | sed -n "/^Updating/,/^At revision/p" >own
sed 's/^/    /' lines
same "an editor of one's own" lines own
end
