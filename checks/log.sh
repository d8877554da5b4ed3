#!/bin/sh
# Runs the built program with FEED_LOG=stderr and without it, over the same store and the same requests: a server, a
# mirror over HTTP and a walk of a foreign feed. Standard output, the exit status and the files have to be the same, and
# standard error has to have the expected lines, or none. Ports, times and numbers of bytes are masked.
# Usage: checks/log.sh [PROGRAM]. PROGRAM is run in place of the one of this repository. It ends with 0 if all agrees, with
# 1 if not, and with 2 if there is no curl. It takes some seconds.
top=$(CDPATH='' cd -- "$(dirname -- "$0")/.." && pwd) || exit 1
tool=${1:-$top/out/feed_tool}
case $tool in
    /*) ;;
    */*) tool=$(CDPATH='' cd -- "$(dirname -- "$tool")" && pwd)/$(basename -- "$tool") || exit 1 ;;
esac
command -v curl >/dev/null || { echo 'log.sh: needs curl' >&2; exit 2; }
[ -n "$1" ] || "$top/prove" || exit 1
unset FEED_LOG

work=$(mktemp -d) || exit 1
server=
finish() {
    [ -z "$server" ] || kill "$server" 2>/dev/null
    wait
    rm -rf "$work"
}
trap finish EXIT
trap 'exit 1' HUP INT TERM
passed=0
failed=0

# usage: same NAME EXPECTED GOT
same() {
    if [ "$2" = "$3" ]; then
        passed=$((passed + 1))
    else
        failed=$((failed + 1))
        printf 'FAILED: %s: expected\n%s\ngot\n%s\n' "$1" "$2" "$3"
    fi
}

# A port below those that the system gives to clients, so that no client of this machine has it by chance.
port=$(awk -v seed=$$ 'BEGIN { srand(seed); print 10000 + int(rand() * 20000) }')
base=http://127.0.0.1:$port/
mask() { sed -e "s/:$port/:PORT/g" -e 's/\(peer=127.0.0.1:\)[0-9]*/\1N/' -e 's/ ms=[0-9]*\.[0-9][0-9][0-9]/ ms=T/' \
    -e 's/ bytes=[0-9]*/ bytes=B/' "$1"; }
ask() { curl -q -s --noproxy '*' --max-time 20 "$@"; }
long=$(printf '%0300d' 0)

mkdir "$work/made"
cd "$work/made" || exit 1
"$tool" init --base "$base" --uuid 6d1f0c5a-93be-4c27-8d10-2b7f9e4a5c36 --title News --author Editor --window 2 >/dev/null \
    || exit 1
printf 'add One\nadd Two\nadd Three\n' | "$tool" apply >/dev/null || exit 1

# usage: tour NAME, with FEED_LOG as it is to be. The outputs go to files of the folder NAME.
tour() {
    mkdir "$work/$1" "$work/$1/mirror" || exit 1
    cp -R "$work/made" "$work/$1/store"
    cd "$work/$1/store" || exit 1
    "$tool" serve --listen "127.0.0.1:$port" --requests 9 >../serve.out 2>../serve.err &
    server=$!
    tries=0
    # A connection that is closed at once counts, too, but a refused one doesn't.
    until ask -o ../feed "${base}feed"; do
        tries=$((tries + 1))
        [ "$tries" -le 100 ] || { echo 'FAILED: the server does not answer'; exit 1; }
        sleep 0.1
    done
    ask -o /dev/null "${base}nothing"
    ask -o /dev/null --request-target '/a\b%20"' "$base"
    ask -o /dev/null "$base$long"
    cd ../mirror || exit 1
    "$tool" mirror --base "$base" --fetch >../mirror.out 2>../mirror.err
    echo $? >>../mirror.out
    "$tool" foreign --from "${base}feed" >../foreign.out 2>../foreign.err
    echo $? >>../foreign.out
    ask -o /dev/null -X PUT "${base}member/1"
    wait "$server"
    echo $? >>../serve.out
    server=
}

tour without
FEED_LOG=other
export FEED_LOG
tour other
FEED_LOG=stderr
tour with
unset FEED_LOG

for file in serve.out mirror.out foreign.out feed store/journal store/sealed mirror/mirror; do
    same "$file" "$(cksum <"$work/without/$file")" "$(cksum <"$work/with/$file")"
done
for command in serve mirror foreign; do
    same "nothing from $command" '' "$(cat "$work/without/$command.err" "$work/other/$command.err")"
done

# usage: line METHOD TARGET STATUS
line() { printf 'event=connection peer=127.0.0.1:N method=%s target=%s status=%s bytes=B ms=T\n' "$1" "$2" "$3"; }
# the lines of the tour's requests, in their order
served() {
    echo 'event=listen address=127.0.0.1:PORT'
    line GET /feed 200
    line GET /nothing 404
    line GET '/a\x5cb%20"' 404
    line GET "/$(printf '%0199d' 0)" 404
    # the mirror and the walk
    line GET /feed 200
    line GET /archive/1 200
    line GET /feed 200
    line GET /archive/1 200
    line PUT /member/1 411
}
fetched() {
    for path in feed archive/1; do
        echo "event=fetch address=http://127.0.0.1:PORT/$path ms=T answer=found bytes=B"
    done
}
# A slow disk adds lines of its syncs.
same 'the lines of serve' "$(served)" "$(mask "$work/with/serve.err")"
same 'the lines of mirror' "$(fetched)" "$(mask "$work/with/mirror.err" | grep -v '^event=sync ')"
same 'the lines of foreign' "$(fetched)" "$(mask "$work/with/foreign.err")"

# The bytes that were fetched are those of the server's replies without their heads.
same 'the bytes of the feed' "$(wc -c <"$work/with/feed" | tr -d ' ')" \
    "$(sed -n 's/.*\/feed .* bytes=//p' "$work/with/mirror.err")"

# Lines of connections are kept for a tenth of a second at most while the server waits, and are written earlier if they are
# many. Here the first one is written before the second connection, and the others fill the room for them three times.
cd "$work/with/store" || exit 1
FEED_LOG=stderr "$tool" serve --listen "127.0.0.1:$port" --requests 201 >/dev/null 2>../many.err &
server=$!
tries=0
until ask -o /dev/null "${base}n0"; do
    tries=$((tries + 1))
    [ "$tries" -le 100 ] || { echo 'FAILED: the server does not answer'; exit 1; }
    sleep 0.1
done
# The server has the files locked: a failed call is logged with the system's number for that.
FEED_LOG=stderr "$tool" show feed >/dev/null 2>../locked.err
same 'a locked store' 4 "$?"
same 'the line of a failed call' 'event=disk-fault call=sync area=journal error=11' "$(cat ../locked.err)"
sleep 1
same 'the line of a server that waits' "$(line GET /n0 404)" "$(mask "$work/with/many.err" | grep '^event=connection ')"
ask -o /dev/null "${base}n[1-200]"
wait "$server"
server=
same 'many lines' "$(for number in $(seq 0 200); do line GET "/n$number" 404; done)" \
    "$(mask "$work/with/many.err" | grep '^event=connection ')"

# A closed standard error changes nothing.
cd "$work/with/mirror" || exit 1
FEED_LOG=stderr "$tool" foreign --from "${base}feed" >../closed.out 2>&-
same 'a closed standard error' 7 "$?"

echo "$passed passed, $failed failed"
[ "$failed" -eq 0 ]
