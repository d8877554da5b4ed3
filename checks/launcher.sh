#!/bin/sh
# Runs ./feed_tool and ./prove in fresh clones of this checkout's HEAD, each before and after the program is proved:
# unproved runs, a run without `rt`, a proof that is stopped and started again, two at once, a symbolic link, and a
# source that changed. It compares exit statuses and texts with those that are expected.
# Usage: checks/launcher.sh. It needs git and rt, and 3 GB of disk. It ends with 0 if all agree. What `rt ci` or ./prove
# proved on this machine isn't proved again: after either it proves the program's own crate once, and makes three
# unproved runs. Without that it proves all crates first.
top=$(CDPATH='' cd -- "$(dirname -- "$0")/.." && pwd) || exit 1
work=$(mktemp -d) || exit 1
trap 'rm -rf "$work"' EXIT
trap 'exit 1' HUP INT TERM
passed=0
failed=0

# counts the case $1, which is right if the command after it succeeds
right() {
    name=$1
    shift
    if "$@"; then
        passed=$((passed + 1))
    else
        failed=$((failed + 1))
        printf 'FAILED: %s\n' "$name"
        tail -n 5 "$work/errors"
    fi
}

# makes a fresh clone in the folder $1 of $work
cloned() { git clone -q "$top" "$work/$1" || exit 1; }

# runs a command, with its status, output and errors in $work
ran() {
    "$@" >"$work/output" 2>"$work/errors"
    status=$?
}

# whether the last run ended with the status $1 and the output of the file $2
ended() { [ "$status" -eq "$1" ] && cmp -s "$work/output" "$2"; }

# whether the last run said on standard error, in one line, that it isn't proved
said_unproved() { [ "$(wc -l <"$work/errors")" -eq 1 ] && grep -q "isn't proved" "$work/errors"; }

# whether the last run said nothing on standard error
said_nothing() { [ ! -s "$work/errors" ]; }

# how many crates the last run proved
proved() { grep -c '^prove: [a-z_]* proved, ' "$work/errors"; }

# whether the last run proved the program's own crate alone
proved_the_last_alone() { [ "$(proved)" -eq 1 ] && grep -q '^prove: feed_tool proved, ' "$work/errors"; }

expected=$top/crates/feed_tool/stdout
: >"$work/nothing"
echo 'bad line 1' >"$work/bad_line"
without_rt=/usr/bin:/bin
if (PATH=$without_rt && command -v rt >/dev/null); then
    echo 'launcher.sh: rt is in /usr/bin or /bin, so its absence cannot be tried' >&2
    exit 2
fi

cloned one
tool=$work/one/feed_tool

# before the proof: a command that uses nothing runs unproved
ran "$tool" apply 4 </dev/null
right 'an unproved run' ended 0 "$expected"
right 'an unproved run says so in one line' said_unproved
right 'an unproved run keeps no program' [ ! -e "$work/one/out/feed_tool" ]
printf 'bad\n' >"$work/input"
ran "$tool" apply 4 <"$work/input"
right 'the exit status of an unproved run' ended 10 "$work/bad_line"
(sleep 4 && printf 'bad\n') | { ran "$tool" apply 4; echo "$status" >"$work/status"; }
status=$(cat "$work/status")
right 'the input of a slow pipe' ended 10 "$work/bad_line"

# without rt nothing is run or proved
ran env PATH="$without_rt" "$tool" apply 4 </dev/null
right 'no unproved run without rt' ended 1 "$work/nothing"
right 'the launcher names rt' grep -q 'rt is not on the path' "$work/errors"
ran env PATH="$without_rt" "$work/one/prove"
right 'no proof without rt' ended 1 "$work/nothing"
right 'the proof names rt' grep -q 'rt is not on the path' "$work/errors"

# a proof that is stopped leaves nothing but what it proved
ran timeout 5 "$work/one/prove"
right 'a stopped proof' [ "$status" -ne 0 ]
right 'a stopped proof keeps no program' [ ! -e "$work/one/out/feed_tool" ]

# two at once, in one clone and in another
cloned other
"$work/one/prove" >/dev/null 2>"$work/first" &
first=$!
"$work/one/prove" >/dev/null 2>"$work/second" &
second=$!
ran "$work/other/prove"
right 'a proof beside two others' [ "$status" -eq 0 ]
wait "$first"
right 'the first of two proofs in one clone' [ $? -eq 0 ]
wait "$second"
right 'the second of two proofs in one clone' [ $? -eq 0 ]
right 'the same program of both clones' cmp -s "$work/one/out/feed_tool" "$work/other/out/feed_tool"

# after the proof: no command says anything, and none is proved again
ran "$tool" apply 4 </dev/null
right 'a proved run' ended 0 "$expected"
right 'a proved run says nothing' said_nothing
ran env PATH="$without_rt" "$tool" apply 4 </dev/null
right 'a proved run without rt' ended 0 "$expected"
ran "$work/one/prove"
right 'a second proof proves nothing' [ "$(proved)" -eq 0 ]
ln -s "$tool" "$work/linked"
ran sh -c "cd / && '$work/linked' apply 4 </dev/null"
right 'a symbolic link' ended 0 "$expected"
mkdir "$work/store"
ran sh -c "cd '$work/store' && '$work/linked' init --base http://feed.example/ \
    --uuid 6d1f0c5a-93be-4c27-8d10-2b7f9e4a5c36 --title News --author Editor"
right 'a command that uses files' [ "$status" -eq 0 ]
right 'a command that uses files says nothing' said_nothing

# a source that changed: unproved runs again, and a command that uses files is proved first
# The comment is a new one at each run, so that no earlier proof has it.
echo "// A comment of $(date +%s)." >>"$work/one/crates/feed_tool/src/main.rt"
ran "$tool" apply 4 </dev/null
right 'an unproved run after a change' ended 0 "$expected"
right 'an unproved run after a change says so' said_unproved
ran sh -c "cd '$work/store' && '$tool' show feed"
right 'a command that uses files after a change' [ "$status" -eq 0 ]
right 'its proof is of the changed crate alone' proved_the_last_alone
ran "$tool" apply 4 </dev/null
right 'a proved run after the change' said_nothing

echo "$passed passed, $failed failed"
[ "$failed" -eq 0 ]
