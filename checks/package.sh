#!/bin/sh
# Makes the package by deploy/package, unpacks it into a root of its own, and tries what is in it: the worked example of
# the README with the unpacked program, the units by systemd-analyze, the user by systemd-sysusers, the manual page by
# man, the scripts by shellcheck, and the whole package by lintian. A tool that isn't there is named and passed over.
# Usage: checks/package.sh [PROGRAM]. PROGRAM is packed in place of the one of this repository. It ends with 0 if all
# agrees, with 1 if not, and with 2 if there is no curl. It takes half a minute.
top=$(CDPATH='' cd -- "$(dirname -- "$0")/.." && pwd) || exit 1
tool=${1:-$top/out/feed_tool}
command -v curl >/dev/null || { echo 'package.sh: needs curl' >&2; exit 2; }
[ -n "$1" ] || "$top/prove" || exit 1

work=$(mktemp -d) || exit 1
trap 'rm -rf "$work"' EXIT
trap 'exit 1' HUP INT TERM
passed=0
failed=0
passed_over=0

# counts the case $1, which is right if the command after it succeeds; its output is shown if it fails
right() {
    name=$1
    shift
    if "$@" >"$work/said" 2>&1; then
        passed=$((passed + 1))
    else
        failed=$((failed + 1))
        printf 'FAILED: %s\n' "$name"
        head -n 20 "$work/said"
    fi
}

# whether a tool is there
with() {
    command -v "$1" >/dev/null && return
    echo "passed over: there is no $1"
    passed_over=$((passed_over + 1))
    return 1
}

# whether a command says nothing and succeeds
silent() {
    "$@" >"$work/aloud" 2>&1
    ended=$?
    cat "$work/aloud"
    [ "$ended" -eq 0 ] && [ ! -s "$work/aloud" ]
}

# The package

"$top/deploy/package" "$tool" >"$work/name" || exit 1
package=$(cat "$work/name")
root=$work/root
mkdir "$root"
right 'the package is unpacked' dpkg-deb -x "$package" "$root"
dpkg-deb -e "$package" "$work/control"
program=$root/usr/bin/feed_tool
right 'the package lists its files' sh -c "cd '$root' && md5sum --quiet -c '$work/control/md5sums'"
only_the_c_library() { sed -n 's/^Depends: //p' "$work/control/control" | grep -E '^libc6 \(>= [0-9.]+\)$'; }
right 'it depends on the C library alone' only_the_c_library
cp "$package" "$work/first.deb"
"$top/deploy/package" "$tool" >/dev/null || exit 1
right 'a second package is the same' cmp "$work/first.deb" "$package"

# The worked example of the README. The lines begin with the folder of the example, whose parent has the program.

# A port below those that the system gives to clients, so that no client of this machine has it by chance.
port=$(awk -v seed=$$ 'BEGIN { srand(seed); print 10000 + int(rand() * 20000) }')
awk '/^## / { inside = $0 == "## A worked example" } inside && /^```/ { code++; next } inside && code == 1' \
    "$top/README.md" | sed -e 's|\.\./feed_tool|feed_tool|g' -e "s|127\.0\.0\.1:8080|127.0.0.1:$port|g" >"$work/lines"
(cd "$work" && PATH=$root/usr/bin:$PATH timeout 60 sh -e ./lines >"$work/printed" 2>"$work/errors")
status=$?
right 'the example ends with 0' [ "$status" -eq 0 ]
# usage: printed LINE
printed() { grep -Fqx -e "$1" "$work/printed" || { cat "$work/printed" "$work/errors"; return 1; }; }
for line in ready '201 1' '200 1' 'archive 1' 'complete 4 2' 'accepted 4 2' 'operations 60'; do
    right "the example prints '$line'" printed "$line"
done

# The scripts find the program on the path.
right 'the demonstration' env PATH="$root/usr/bin:$PATH" timeout 60 "$root/usr/share/feed-tool/demo"
(cd "$work/example" && PATH=$root/usr/bin:$PATH "$root/usr/share/feed-tool/export" "$work/folder") >"$work/exported" 2>&1
right 'the export of the example' grep -qx 'exported 1 new, 0 kept' "$work/exported"

# The manual page, whole
page=$root/usr/share/man/man1/feed_tool.1.gz
if with man; then
    right 'the manual page has no warning' silent sh -c "man --warnings -l '$page' 2>&1 >/dev/null"
    MANWIDTH=100 man -l "$page" 2>/dev/null | col -b >"$work/page"
    for command in init apply show serve mirror audit drill; do
        right "the manual page has $command" grep -q "^ *feed_tool $command" "$work/page"
    done
    for number in 0 2 3 4 5 6 7 8 9 10 11 12; do
        right "the manual page has the status $number" grep -Eq "^ +$number  +[a-z]" "$work/page"
    done
fi

# The units, with the program where it was unpacked
if with systemd-analyze; then
    mkdir "$work/units"
    for unit in feed@.service feed-mirror@.service feed-mirror@.timer feed-relay@.service; do
        sed "s|/usr/bin/feed_tool|$program|" "$root/usr/lib/systemd/system/$unit" >"$work/units/$unit"
    done
    for unit in feed@.service feed-mirror@.service feed-mirror@.timer feed-relay@.service; do
        right "$unit is right" silent systemd-analyze verify --man=no "$work/units/$unit"
    done
    # 0 is confined most and 100 not at all.
    for unit in feed@.service feed-mirror@.service feed-relay@.service; do
        right "$unit is confined" systemd-analyze security --offline=true --threshold=30 --no-pager "$work/units/$unit"
    done
fi
if with systemd-sysusers; then
    mkdir -p "$root/etc"
    right 'the user is made' systemd-sysusers --root="$root" feed-tool.conf
    right 'the user is there' grep '^feed:' "$root/etc/passwd"
fi

# The scripts, in the package and beside it
if with shellcheck; then
    for script in "$top"/deploy/* "$top"/checks/*.sh "$top"/bench/*.sh; do
        head -n 1 "$script" | grep -q '^#!/bin/sh' || continue
        right "shellcheck of ${script#"$top/"}" silent shellcheck "$script"
    done
fi

if with lintian; then
    right 'lintian finds no error' lintian --fail-on error "$package"
fi

echo "$passed passed, $passed_over tools not there, $failed failed"
[ "$failed" -eq 0 ]
