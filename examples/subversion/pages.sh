#!/bin/bash
# The commands on the pages that are about Subversion's own repositories and working copies, run as they are written: the outputs on the page are compared
# with what is printed, and where there is none, each command must succeed.
#
# It needs Debian's packages `subversion`, `sqlite3` and `socat`, python3, and `svnaudit`, `svncopy`, `svnread` and `svnup` as `tools/prove` builds them
# (crates/svnaudit/out/svnaudit and so on), or the programs that the variables SVNAUDIT, SVNCOPY, SVNREAD and SVNUP name. Servers on the pages, `svn://h/` and
# the one on port 3690, are here at ports that are free. It works in a folder of its own, which goes at the end, and is no part of the gate. The last line
# counts what differs.
. "$(dirname "${BASH_SOURCE[0]}")/room.sh"
. "$here/dump_history.sh"
. "$here/false_copies.sh"
needs sqlite3 python3 svnserve socat
needs_built svnaudit svncopy svnread svnup
mkdir programs
ln -s "$SVNAUDIT" programs/svnaudit
ln -s "$SVNCOPY" programs/svncopy
ln -s "$SVNREAD" programs/svnread
ln -s "$SVNUP" programs/svnup
PATH=$room/programs:$PATH

# on_page PAGE HEADING: the indented lines below a heading
on_page() { awk -v heading="$2" '/^#/ { on = $0 == heading } on && /^    / { print substr($0, 5) }' "$top/$1"; }

# runs PAGE HEADING: each command succeeds
runs() {
    on_page "$1" "$2" >commands
    : >wanted
    : >got
    bash -e commands >said 2>&1 </dev/null || cat said >got
    [ -s commands ] || echo "there are no commands" >got
    same "$1, $2" wanted got
}

give_status() { return "$1"; }

# prints PAGE HEADING: after each line that begins with `$` comes what the command prints
prints() {
    local line status=0
    on_page "$1" "$2" >wanted
    grep '^\$ ' wanted >commands
    while IFS= read -r line; do
        printf '%s\n' "$line"
        give_status $status
        eval "${line#\$ }" 2>&1 </dev/null
        status=$?
    done <commands >got
    same "$1, $2" wanted got
}

echo "== a script's commits in Subversion, and a repository of Subversion in a script"
mkdir script
cd script || exit 2
cp "$top/examples/tutorial.script" my.script
prints docs/TUTORIAL.md "## 7. A real copy, cut off and completed"
runs docs/TUTORIAL.md "## A script over a repository of your own"
cd "$room" || exit 2

echo "== copies that are checked"
restored restored
ln -s restored.repo repo
mv restored wc
svn -q checkout "file://$room/restored.repo" other
svn -q update -r 2 other/d
prints docs/AUDIT.md "## check"
prints README.md "## Check a working copy, and mend it"
rm repo

echo "== an update, and trees"
cp "$top/crates/test_real_data/data/dumps/features.dump" .
svnadmin create repo
svnadmin load -q --bypass-prop-validation repo <features.dump
url=file://$room/repo
svn -q checkout -r 2 "$url/trunk" w1
svn -q update -r 3 w1/a.c
svn switch -q --ignore-ancestry -r 2 "$url/branches/1.x/lib@2" w1/lib
prints docs/AUDIT.md "## report, update, calls, nodes"
prints docs/AUDIT.md "## show"
rm -rf repo
svnadmin create repo
cp "$top/examples/first_update.script" x.script
prints docs/AUDIT.md "## write"

# free_port: one at which nothing listens
free_port() { python3 -c 'import socket; s = socket.socket(); s.bind(("localhost", 0)); print(s.getsockname()[1])'; }

# commands_of PAGE HEADING: those lines that begin with `$`, with the servers at their ports
commands_of() {
    on_page "$1" "$2" | sed -n 's/^\$ //p' | sed "s,svn://h/,svn://localhost:$stock/,g; s,TCP-LISTEN:3690,TCP-LISTEN:$ours,; s,svn://localhost/,svn://localhost:$ours/,"
}

# succeeds PAGE HEADING: each of these does, one that serves beside those after it
succeeds() {
    local line
    commands_of "$1" "$2" >commands
    : >wanted
    : >got
    [ -s commands ] || echo "there are no commands" >got
    while IFS= read -r line; do
        case $line in
        socat*)
            # what comes after it is another way to a copy
            rm -rf wc
            eval "exec $line" </dev/null 2>/dev/null &
            servers+=($!)
            listens "$ours"
            ;;
        *) eval "$line" >said 2>&1 </dev/null || { echo "$line"; cat said; } >>got ;;
        esac
    done <commands
    same "$1, $2" wanted got
}

# listens PORT: waits until something does
listens() {
    local turn
    for turn in $(seq 50); do
        (: <"/dev/tcp/localhost/$1") 2>/dev/null && return
        sleep 0.1
    done
}
servers=()

echo "== copies that are made and updated, and a history that is served"
mkdir hosts made read
(cd hosts && make_history repo >/dev/null) || exit 1
stock=$(free_port)
svnserve -d --foreground --listen-host localhost --listen-port "$stock" -r hosts &
servers+=($!)
listens "$stock"
ours=$(free_port)
cd made || exit 2
ln -s ../hosts/repo repo
svnadmin dump -q repo >repo.dump
succeeds README.md "## Make or update a working copy, or serve a history"
svn info "svn://localhost:$ours/trunk" >said 2>&1 || { wrong=$((wrong + 1)); echo "NOTHING IS SERVED"; }
rm -rf wc
succeeds docs/COPY.md "## checkout"
cd "$room/read" || exit 2
kill "${servers[1]}"
wait "${servers[1]}" 2>/dev/null
unset 'servers[1]'
cp ../made/repo.dump .
mkdir conf
on_page docs/READ.md "## With Subversion's client" | grep -A1 '^\[tunnels\]' | sed "s,/path/to,$PWD," >conf/config
svn() { command svn --config-dir "$room/read/conf" --non-interactive "$@"; }
on_page docs/READ.md "## With Subversion's client" | grep -q '^\[tunnels\]' || { wrong=$((wrong + 1)); echo "THERE IS NO TUNNEL"; }
ours=$(free_port)
succeeds docs/READ.md "## With Subversion's client"
unset -f svn
kill "${servers[@]}"
wait "${servers[@]}" 2>/dev/null
cd "$room" || exit 2

echo "== the version"
version=$(sed -n 's/^pub const VERSION: &str = "\(.*\)";$/\1/p' "$top/crates/svn_version/src/lib.rt")
for name in svnup svnaudit svncopy svnread; do
    echo "$name $version" >wanted
    $name --version >got 2>&1 </dev/null
    same "the version of $name" wanted got
done

echo "== the library in another repository"
mkdir checkout your_repository
cp -r "$top/tools" "$top/crates.txt" "$top/HANDLES" checkout
ln -s "$top/crates" checkout/crates
cd checkout || exit 2
runs docs/EMBEDDING.md "## Adding it to your repository"
cd "$room" || exit 2
end
