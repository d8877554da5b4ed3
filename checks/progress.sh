#!/bin/sh
# Runs the built program with standard error at a terminal, which `script` makes, and without one. A long command has to
# draw its line of progress, with the right number of bytes in all, at most ten times a second, and to erase it before its
# first output. A short one draws nothing, and so does one without a terminal, with FEED_LOG, or whose input is typed.
# Standard output and the exit status have to be the same in each case. `strace` makes calls slow, so that small files take
# long.
# Usage: checks/progress.sh [PROGRAM]. PROGRAM is run in place of the one of this repository. It ends with 0 if all agrees,
# with 1 if not, and with 2 if a tool is missing. It takes half a minute.
top=$(CDPATH='' cd -- "$(dirname -- "$0")/.." && pwd) || exit 1
tool=${1:-$top/out/feed_tool}
case $tool in
    /*) ;;
    */*) tool=$(CDPATH='' cd -- "$(dirname -- "$tool")" && pwd)/$(basename -- "$tool") || exit 1 ;;
esac
for needed in curl script strace; do
    command -v "$needed" >/dev/null || { echo "progress.sh: needs $needed" >&2; exit 2; }
done
[ -n "$1" ] || "$top/prove" || exit 1
unset FEED_LOG

work=$(mktemp -d) || exit 1
server=
finish() {
    [ -z "$server" ] || kill "$server" 2>/dev/null
    wait
    rm -rf "$work"
}
trap finish EXIT
trap 'exit 1' HUP INT TERM
passed=0
failed=0

# usage: same NAME EXPECTED GOT
same() {
    if [ "$2" = "$3" ]; then
        passed=$((passed + 1))
    else
        failed=$((failed + 1))
        printf 'FAILED: %s: expected\n%s\ngot\n%s\n' "$1" "$2" "$3"
    fi
}

# the file of what a terminal got
seen=$work/seen

# runs a line of the shell at a terminal, which is its standard error and all that the line doesn't redirect
at_terminal() { script -qec "$1" /dev/null </dev/null >"$seen" 2>&1; }

# the words that run the program with a delay of $2 microseconds before each call $1 of the system
slow() { echo "strace -qq -o /dev/null -e trace=$1 -e inject=$1:delay_enter=$2 '$tool'"; }

escape=$(printf '\033')
# what the terminal got, a line for each drawing, and `erased` where it was erased
lines() { tr '\r' '\n' <"$seen" | sed -e '1{/^$/d}' -e "s/^$escape\[K/erased&/" -e "s/$escape\[K//"; }

# Prints `drawn, of BYTES` if the terminal got drawings, of which the last that begins with $1 says so, and then was erased
# and got nothing more. Else it prints what the terminal got. $2 is how many milliseconds that took.
drawn() {
    lines | awk -v what="$1: " -v most="$(($2 / 100))" '
        { text = text $0 "\n" }
        /^(reading files|reading input|fetching): [0-9]+\.[0-9] MB( of [0-9]+\.[0-9] MB)?(, [0-9]+\.[0-9] MB\/s)?$/ && !erased {
            drawings++
            split(substr($0, index($0, ":") + 2), words, " ")
            if (words[3] == "of" && words[1] + 0 > words[4] + 0) wrong = 1
            if (index($0, what) == 1) of = words[3] == "of" ? words[4] : "-"
            next
        }
        $0 == "erased" && drawings && !erased { erased = 1; next }
        { wrong = 1 }
        END {
            if (wrong || !erased || of == "" || drawings > most) printf "%s%d drawings", text, drawings
            else print "drawn, of " of
        }'
}

now() { date +%s%3N; }
masked() { sed 's/[0-9-]*T[0-9:.]*Z/TIME/g' "$1" | cksum; }

# Tries a command that is long, and short: in a copy of the folder `folder`, with the file `input` as its input, and with
# calls `call` that take `delay` microseconds longer. `environment` goes before the command.
# usage: try NAME WHAT BYTES WORD..
try() {
    name=$1
    what=$2
    bytes=$3
    shift 3
    rm -rf "$work/copy"
    cp -R "$work/$folder" "$work/copy"
    cd "$work/copy" || exit 1
    "$tool" "$@" <"$work/$input" >"$work/wanted" 2>"$work/errors"
    wanted=$?
    same "$name, no terminal" '' "$(cat "$work/errors")"

    rm -rf "$work/copy"
    cp -R "$work/$folder" "$work/copy"
    cd "$work/copy" || exit 1
    began=$(now)
    at_terminal "$(slow "$call" "$delay") $* <'$work/$input' >'$work/got'"
    same "$name, the status" "$wanted" "$?"
    same "$name, the line" "drawn, of $bytes" "$(drawn "$what" $(($(now) - began)))"
    same "$name, standard output" "$(masked "$work/wanted")" "$(masked "$work/got")"

    rm -rf "$work/copy"
    cp -R "$work/$folder" "$work/copy"
    cd "$work/copy" || exit 1
    at_terminal "FEED_LOG='' $(slow "$call" "$delay") $* <'$work/$input' >'$work/got'"
    same "$name, with FEED_LOG" '' "$(lines)"
    same "$name, standard output with FEED_LOG" "$(masked "$work/wanted")" "$(masked "$work/got")"
}

# the bytes of files in megabytes, as the line has them
megabytes() { cat "$@" | wc -c | awk '{ printf "%d.%d", $1 / 1000000, int($1 / 100000) % 10 }'; }

# A store of some hundred kilobytes and its documents

# A port below those that the system gives to clients, so that no client of this machine has it by chance.
port=$(awk -v seed=$$ 'BEGIN { srand(seed); print 10000 + int(rand() * 20000) }')
base=http://127.0.0.1:$port/
mkdir "$work/store" "$work/empty"
cd "$work/store" || exit 1
"$tool" init --base "$base" --uuid 6d1f0c5a-93be-4c27-8d10-2b7f9e4a5c36 --title News --author Editor --window 90 >/dev/null ||
    exit 1
awk -v long="$(printf '%0900d' 0)" 'BEGIN { for (i = 1; i <= 450; i++) print "add " i " " long }' >"$work/lines"
"$tool" apply <"$work/lines" >"$work/document" || exit 1
"$tool" show pile >"$work/pile" || exit 1
(cd "$work/empty" && "$tool" mirror --base "$base" <"$work/pile" >"$work/certificate" && rm mirror) || exit 1
cat "$work/certificate" "$work/pile" >"$work/both"
: >"$work/nothing"
files=$(megabytes "$work/store/journal" "$work/store/sealed")

# Long commands

folder=store input=nothing call=pread64 delay=40000
try 'a load' 'reading files' "$files" show feed
try 'a pile' 'reading files' "$files" show pile
try 'scrub' 'reading files' "$files" scrub
folder=empty input=lines call=read delay=100000
try 'apply in memory' 'reading input' "$(megabytes "$work/lines")" apply 90
input=pile
try 'mirror' 'reading input' "$(megabytes "$work/pile")" mirror --base "$base"
try 'mirror, a report' 'reading input' "$(megabytes "$work/pile")" mirror --base "$base" --report
input=both
try 'audit' 'reading input' "$(megabytes "$work/both")" audit
input=document delay=300000
try 'show' 'reading input' "$(megabytes "$work/document")" show
folder=store input=lines delay=100000
try 'apply' 'reading input' "$(megabytes "$work/lines")" apply

# A pipe, of which the bytes in all aren't known

cd "$work/empty" || exit 1
cat >"$work/slowly" <<'SLOWLY'
for i in 1 2 3 4 5 6 7 8; do
    echo "add $i"
    sleep 0.1
done
SLOWLY
began=$(now)
at_terminal "sh '$work/slowly' | '$tool' apply 4 >'$work/got'"
same 'a pipe, the status' 0 "$?"
same 'a pipe, the line' 'drawn, of -' "$(drawn 'reading input' $(($(now) - began)))"
sh "$work/slowly" | "$tool" apply 4 >"$work/wanted" 2>"$work/errors"
same 'a pipe, standard output' "$(masked "$work/wanted")" "$(masked "$work/got")"
same 'a pipe, no terminal' '' "$(cat "$work/errors")"

# Standard output at the terminal, too: the line is erased before the first byte.
at_terminal "sh '$work/slowly' | '$tool' apply 4"
tr -d '\r' <"$seen" | sed "s/.*$escape\[K//" >"$work/got"
same 'an output at the terminal' "$(masked "$work/wanted")" "$(masked "$work/got")"

# Typed input: the terminal shows the typed text and nothing else.
{ sleep 1; echo 'add One'; sleep 1; printf '\004'; } | script -qec "'$tool' apply 4 >'$work/got'" /dev/null >"$seen" 2>&1
same 'typed input' 'add One' "$(tr -d '\r' <"$seen" | sed 's/\^D//' | grep . | sort -u)"

# A short command draws nothing, and neither does one whose standard error is closed.
at_terminal "'$tool' apply 4 <'$work/lines' >'$work/got'"
same 'a short command' '' "$(lines)"
sh "$work/slowly" | "$tool" apply 4 >"$work/got" 2>&-
same 'a closed standard error, the status' 0 "$?"
same 'a closed standard error, standard output' "$(masked "$work/wanted")" "$(masked "$work/got")"

# A server: the line is erased before it listens, and its requests draw none, however long they read.

cd "$work/store" || exit 1
seen=$work/server
at_terminal "$(slow pread64 40000) serve --listen 127.0.0.1:$port --requests 8 >'$work/served'" &
server=$!
began=$(now)
tries=0
ask() { curl -q -s --noproxy '*' --max-time 20 -o "$work/reply" "$base$1"; }
until ask feed; do
    tries=$((tries + 1))
    [ "$tries" -le 200 ] || { echo 'FAILED: the server does not answer'; exit 1; }
    sleep 0.1
done
took=$(($(now) - began))
same 'a server that listens, the line' "drawn, of $files" "$(drawn 'reading files' "$took")"
ask archive/1
ask archive/2

# A mirror of it by HTTP. The bytes in all aren't known.
mkdir "$work/fetched"
cd "$work/fetched" || exit 1
seen=$work/seen
began=$(now)
at_terminal "$(slow connect 200000) mirror --base $base --fetch >'$work/got'"
same 'mirror --fetch, the status' 0 "$?"
same 'mirror --fetch, the line' 'drawn, of -' "$(drawn fetching $(($(now) - began)))"
same 'mirror --fetch, standard output' "$(cksum <"$work/certificate")" "$(cksum <"$work/got")"

wait "$server"
same 'a server, the status' 0 "$?"
server=
same 'a server, standard output' 8 "$(grep -c '^200 ' "$work/served")"
seen=$work/server
same 'a server that has ended, the line' "drawn, of $files" "$(drawn 'reading files' "$took")"

echo "$passed passed, $failed failed"
[ "$failed" -eq 0 ]
