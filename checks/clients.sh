#!/bin/sh
# Runs the built program as a server on stores of its own, goes through create, read, edit, delete, feed and archives with
# curl, and compares whole replies and the lines that the program prints at its end with expected texts.
# Usage: checks/clients.sh [PROGRAM]. PROGRAM is run in place of the launcher. It ends with 0 if all agree, with 1 if not,
# and with 2 if there is no curl. It takes about 15 seconds, of which a silent client takes 10. Timestamps are masked as
# NOW, and a Content-Length that is the length of the body as LENGTH.
top=$(CDPATH='' cd -- "$(dirname -- "$0")/.." && pwd) || exit 1
tool=${1:-$top/feed_tool}
case $tool in
    /*) ;;
    */*) tool=$(CDPATH='' cd -- "$(dirname -- "$tool")" && pwd)/$(basename -- "$tool") || exit 1 ;;
esac
# `telnet` is curl's way to open a connection and send nothing
if ! curl -q -V 2>/dev/null | grep '^Protocols:' | grep -w http | grep -qw telnet; then
    echo 'clients.sh: needs curl, with http and telnet' >&2
    exit 2
fi
work=$(mktemp -d) || exit 1
server=
silent=
finish() {
    [ -z "$server" ] || kill -9 "$server" 2>/dev/null
    [ -z "$silent" ] || kill "$silent" 2>/dev/null
    rm -rf "$work"
}
trap finish EXIT
trap 'exit 1' HUP INT TERM
: >"$work/passed"
: >"$work/failed"
: >"$work/input"

[ -n "$1" ] || "$top/prove" || exit 1

cr=$(printf '\r')
masked() { LC_ALL=C sed -E 's/[0-9]{4}-[0-9]{2}-[0-9]{2}T[0-9]{2}:[0-9]{2}:[0-9]{2}(\.[0-9]{3})?Z/NOW/g'; }

# The checks count in files, since some of them run at the end of pipes.
pass() { echo "$1" >>"$work/passed"; }
fail() {
    echo "$1" >>"$work/failed"
    printf 'FAILED: %s%s\n' "$1" "${2:+: $2}"
}
counts() {
    echo "$(($(wc -l <"$work/passed"))) passed, $(($(wc -l <"$work/failed"))) failed"
    [ ! -s "$work/failed" ]
}
# usage: check NAME COMMAND..
check() {
    checked=$1
    shift
    if "$@"; then pass "$checked"; else fail "$checked"; fi
}

# compares $work/status and $work/output with an expected status and the expected text on standard input
compare() {
    cat >"$work/expected"
    if [ "$(cat "$work/status")" = "$2" ] && cmp -s "$work/output" "$work/expected"; then
        pass "$1"
    else
        fail "$1" "status $(cat "$work/status"), expected $2"
        diff "$work/expected" "$work/output" | head -n 20
    fi
}

# runs the program with the words given, in a folder
# usage: ran FOLDER WORD..
ran() {
    (cd "$1" && shift && "$tool" "$@" <"$work/input" >"$work/output" 2>"$work/errors"; echo $? >"$work/status")
}

# The server

# A port below those that the system gives to clients, so that no client of this machine has it by chance.
port=$(awk -v seed=$$ 'BEGIN { srand(seed); print 10000 + int(rand() * 20000) }')

# runs curl without the settings of its user. All names lead to the server. Some curls send `Expect` before a long body
# and then wait for an answer that the program never gives.
ask_server() {
    curl -q -s --noproxy '*' --max-time 60 --connect-to "::127.0.0.1:$port" -H 'Expect:' "$@"
}

# Starts the program on the store in a folder. It prints nothing before it ends, so a connection has to show that it
# listens. If another program has the port, the next port is tried. The connection counts, and is answered by the feed.
# usage: start FOLDER REQUESTS VERSION [FLAG]
start() {
    requests=$2
    : >"$work/lines"
    tries=0
    while [ "$tries" -lt 600 ]; do
        tries=$((tries + 1))
        if [ -z "$server" ]; then
            (cd "$1" && exec "$tool" serve --listen "127.0.0.1:$port" --requests "$requests" ${4:+"$4"}) \
                </dev/null >"$work/printed" 2>&1 &
            server=$!
        fi
        if ask_server http://feed.example/feed 2>/dev/null | grep -q '^<id>urn:uuid:6d1f0c5a-93be-4c27-'; then
            echo "200 $3" >>"$work/lines"
            return
        fi
        sleep 0.1
        kill -0 "$server" 2>/dev/null && continue
        wait "$server"
        ended=$?
        server=
        if [ "$ended" != 7 ] || [ -n "$fixed" ]; then
            fail "start of the server in $(basename "$1")" "status $ended, $(head -n 1 "$work/printed")"
            counts
            exit 1
        fi
        port=$((port + 1))
    done
    fail "start of the server in $(basename "$1")" 'it does not answer'
    counts
    exit 1
}
# whether the port has to stay
fixed=

# Waits until the program ends, at most 30 seconds, and keeps its status and what it printed.
await_end() {
    tries=0
    while kill -0 "$server" 2>/dev/null && [ "$tries" -lt 300 ]; do
        tries=$((tries + 1))
        sleep 0.1
    done
    kill -9 "$server" 2>/dev/null
    wait "$server" 2>/dev/null
    echo $? >"$work/status"
    server=
    cp "$work/printed" "$work/output"
}

# uses up the connections that are left, so that the program ends by itself
# usage: use_up VERSION
use_up() {
    while [ "$(wc -l <"$work/lines")" -lt "$requests" ]; do
        ask_server http://feed.example/feed >/dev/null 2>&1 || break
        echo "200 $1" >>"$work/lines"
    done
}

# Sends a request and compares the reply, to the byte but for what is masked, with the text on standard input. Keeps the
# line that the program has to print for it, and the body in $work/body.
# usage: ask NAME VERSION WORD_OF_CURL..
ask() {
    name=$1 version=$2
    shift 2
    cat >"$work/expected"
    : >"$work/head"
    : >"$work/body"
    ask_server -D "$work/head" -o "$work/body" -w '%{time_total}' "$@" >"$work/took" 2>"$work/errors"
    length=$(($(wc -c <"$work/body")))
    {
        LC_ALL=C sed "s/^Content-Length: $length$cr\$/Content-Length: LENGTH$cr/" "$work/head"
        cat "$work/body"
    } | masked >"$work/reply"
    if cmp -s "$work/reply" "$work/expected"; then
        pass "$name"
    else
        fail "$name"
        diff "$work/expected" "$work/reply" | head -n 20
    fi
    echo "$(sed -n '1s/^HTTP\/1.1 \([0-9]*\) .*/\1/p' "$work/expected") $version" >>"$work/lines"
}

# The expected texts

# usage: head_of STATUS TYPE [FIELD..]
head_of() {
    printf 'HTTP/1.1 %s\r\nContent-Type: %s\r\nContent-Length: LENGTH\r\n' "$1" "$2"
    shift 2
    for field; do printf '%s\r\n' "$field"; done
    printf 'Connection: close\r\n\r\n'
}

# a reply whose body is a line
# usage: line_of STATUS LINE [FIELD]
line_of() {
    head_of "$1" 'text/plain;charset=utf-8' ${3:+"$3"}
    printf '%s\n' "$2"
}

# usage: inner NUMBER TITLE CONTENT [AUTHOR]
inner() {
    printf '<id>urn:uuid:6d1f0c5a-93be-8c27-8000-%012x</id><title>%s</title>' "$1" "$2"
    printf '<updated>NOW</updated><app:edited>NOW</app:edited>'
    printf '%s<link rel="edit" href="http://feed.example/member/%d"/>%s' "${4:-}" "$1" "$3"
}

# a reply whose body is the document of a member
# usage: member STATUS NUMBER TITLE CONTENT [FIELD]
member() {
    head_of "$1" 'application/atom+xml;type=entry' ${5:+"$5"}
    echo '<?xml version="1.0" encoding="utf-8"?>'
    printf '<entry xmlns="http://www.w3.org/2005/Atom" xmlns:app="http://www.w3.org/2007/app">%s</entry>\n' \
        "$(inner "$2" "$3" "$4" '<author><name>Editor</name></author>')"
}

# usage: item NUMBER TITLE CONTENT
item() { printf '<entry>%s</entry>\n' "$(inner "$@")"; }
# usage: gone NUMBER
gone() { printf '<at:deleted-entry ref="urn:uuid:6d1f0c5a-93be-8c27-8000-%012x" when="NOW"/>\n' "$1"; }

# a reply whose body is the feed or an archive. Its pieces from the span on are on standard input.
# usage: feed PATH [LINK..]
feed() {
    head_of '200 OK' 'application/atom+xml;type=feed'
    cat <<'TEXT'
<?xml version="1.0" encoding="utf-8"?>
<feed xmlns="http://www.w3.org/2005/Atom" xmlns:fh="http://purl.org/syndication/history/1.0" xmlns:at="http://purl.org/atompub/tombstones/1.0" xmlns:app="http://www.w3.org/2007/app" xmlns:sp="urn:archived-feed:span:1">
<id>urn:uuid:6d1f0c5a-93be-4c27-8d10-2b7f9e4a5c36</id>
<title>Feed</title>
<updated>NOW</updated>
<author><name>Editor</name></author>
TEXT
    printf '<link rel="self" href="http://feed.example/%s"/>\n' "$1"
    shift
    for relation; do printf '<link rel="%s" href="http://feed.example/%s"/>\n' "${relation%=*}" "${relation#*=}"; done
    cat
    echo '</feed>'
}

base=http://feed.example
atom='Content-Type: application/atom+xml;type=entry'
open='<entry xmlns="http://www.w3.org/2005/Atom">'
none='<content></content>'
init_words="init --base $base/ --uuid 6d1f0c5a-93be-4c27-8d10-2b7f9e4a5c36 --title Feed --author Editor"

# Commands that don't come to serve

mkdir "$work/store" "$work/other" "$work/empty" "$work/full" "$work/example_store" "$work/pages" || exit 1
ran "$work/empty" serve --listen "127.0.0.1:$port" --requests 1
echo 'not init' | compare 'serve without a store' 6
for folder in store other; do
    # shellcheck disable=SC2086
    ran "$work/$folder" $init_words --window 4
    echo 'ready' | compare "init of $folder" 0
done
ran "$work/store" serve --listen "127.0.0.1:$port" --requests 0
echo 'usage: feed_tool init, apply, show, serve, mirror, audit, drill, foreign, discover, relay, scrub' | compare 'no requests' 2
ran "$work/store" serve --listen nonsense --requests 1
echo 'door fault' | compare 'an address that cannot be listened at' 7

start "$work/store" 100 0
ran "$work/other" serve --listen "127.0.0.1:$port" --requests 1
echo 'door fault' | compare 'a port that another server has' 7
ran "$work/store" serve --listen "127.0.0.1:$((port + 1))" --requests 1
echo 'disk fault' | compare 'a store that another server has' 4

# The first window: create, read, edit, delete

feed feed <<'TEXT' | ask 'the empty feed' 0 $base/feed
<sp:span first="1" last="0"/>
TEXT
cat >"$work/news" <<'TEXT'
<?xml version='1.0'?><atom:entry xmlns:atom='http://www.w3.org/2005/Atom' xmlns:x='urn:x'><atom:id>tag:me</atom:id><atom:title>News</atom:title><atom:content type='html'><![CDATA[<b>A & B</b>]]></atom:content><x:mood>ok</x:mood></atom:entry>
TEXT
news='<content type="html">&lt;b&gt;A &amp; B&lt;/b&gt;</content>'
member '201 Created' 1 News "$news" "Location: $base/member/1" |
    ask 'create' 1 -H "$atom" --data-binary "@$work/news" $base/feed
cp "$work/body" "$work/created"
member '200 OK' 1 News "$news" | ask 'read' 1 $base/member/1
check 'the member is as it was created' cmp -s "$work/created" "$work/body"
member '201 Created' 2 Second "$none" "Location: $base/member/2" |
    ask 'create without a media type' 2 -H 'Content-Type:' -d "$open<title>Second</title></entry>" $base/feed
echo "$open<id>urn:uuid:6d1f0c5a-93be-8c27-8000-000000000001</id><title>Newer</title><content>a&lt;b</content></entry>" >"$work/newer"
member '200 OK' 1 Newer '<content>a&lt;b</content>' |
    ask 'edit' 3 -X PUT -H "$atom" --data-binary "@$work/newer" $base/member/1
cp "$work/body" "$work/edited"
member '200 OK' 1 Newer '<content>a&lt;b</content>' | ask 'read of the edited member' 3 $base/member/1
check 'the member is as it was edited' cmp -s "$work/edited" "$work/body"
line_of '200 OK' deleted | ask 'delete' 4 -X DELETE $base/member/2
feed feed <<TEXT | ask 'the feed of a full window' 4 $base/feed
<sp:span first="1" last="4"/>
$(gone 2)
$(item 1 Newer '<content>a&lt;b</content>')
TEXT
line_of '404 Not Found' 'not found' | ask 'an archive that is not sealed' 4 $base/archive/1

# The second window

member '201 Created' 3 Third "$none" "Location: $base/member/3" |
    ask 'create past the window, with another spelling of the media type' 5 \
        -H 'Content-Type: APPLICATION/Atom+XML ; charset=utf-8' -d "$open<title>Third</title></entry>" $base/feed
feed feed prev-archive=archive/1 <<TEXT | ask 'the feed behind an archive' 5 $base/feed
<sp:span first="5" last="5"/>
$(item 3 Third "$none")
TEXT
feed archive/1 current=feed next-archive=archive/2 >"$work/archive" <<TEXT
<fh:archive/>
<sp:span first="1" last="4"/>
$(gone 2)
$(item 1 Newer '<content>a&lt;b</content>')
TEXT
ask 'a sealed archive' 5 $base/archive/1 <"$work/archive"
cp "$work/body" "$work/archive_1"
ask 'a target with the whole address' 5 --request-target $base/archive/1 $base/ <"$work/archive"
ask 'HTTP/1.0' 5 -0 $base/archive/1 <"$work/archive"

# Refusals

# usage: not_allowed METHODS NAME WORD_OF_CURL..
not_allowed() {
    methods=$1 label=$2
    shift 2
    line_of '405 Method Not Allowed' 'not allowed' "Allow: $methods" | ask "$label" 5 "$@"
}
not_allowed 'GET, POST' 'DELETE of the feed' -X DELETE $base/feed
not_allowed 'GET, POST' 'OPTIONS of the feed' -X OPTIONS $base/feed
not_allowed 'GET' 'PUT of an archive' -X PUT -H "$atom" -d a $base/archive/1
not_allowed 'GET' 'DELETE of an archive that is not sealed' -X DELETE $base/archive/2
not_allowed 'GET, PUT, DELETE' 'POST to a member' -H "$atom" -d a $base/member/1
not_allowed 'GET, PUT, DELETE' 'PATCH of a deleted member' -X PATCH $base/member/2
line_of '501 Not Implemented' 'not implemented' | ask 'another method' 5 -X BREW $base/feed
line_of '501 Not Implemented' 'not implemented' | ask 'a method in lower case' 5 -X get $base/feed

for path in nothing archive/2 archive/0 archive/01 member/4 feed/ service members ''; do
    line_of '404 Not Found' 'not found' | ask "GET /$path" 5 "$base/$path"
done
line_of '404 Not Found' 'not found' |
    ask 'PUT of a member that was never made' 5 -X PUT -H "$atom" -d "$open<title/></entry>" $base/member/4
line_of '404 Not Found' 'not found' | ask 'a query' 5 "$base/feed?page=2"
line_of '410 Gone' gone | ask 'GET of a deleted member' 5 $base/member/2
line_of '410 Gone' gone |
    ask 'PUT of a deleted member' 5 -X PUT -H "$atom" -d "$open<title/></entry>" $base/member/2
line_of '410 Gone' gone | ask 'DELETE of a deleted member' 5 -X DELETE $base/member/2

line_of '415 Unsupported Media Type' 'not an entry type' |
    ask 'another media type' 5 -H 'Content-Type: text/plain' -d "$open<title/></entry>" $base/feed
line_of '415 Unsupported Media Type' 'not an entry type' |
    ask 'an empty media type' 5 -H 'Content-Type;' -d "$open<title/></entry>" $base/feed
line_of '411 Length Required' 'no length' | ask 'POST without a length' 5 -X POST $base/feed
line_of '411 Length Required' 'no length' |
    ask 'a body in chunks' 5 -H "$atom" -H 'Transfer-Encoding: chunked' -d "$open<title/></entry>" $base/feed
line_of '400 Bad Request' 'two lengths' |
    ask 'two lengths' 5 -H "$atom" -H 'Content-Length: 4' -H 'Content-Length: 4' -d '<a/>' $base/feed
line_of '400 Bad Request' 'bad head' |
    ask 'a length that is no number' 5 -H "$atom" -H 'Content-Length: x' -d '<a/>' $base/feed
line_of '400 Bad Request' 'bad head' | ask 'a bad head' 5 --request-target '/fe ed' $base/
seq 65 | sed 's/.*/X-&: a/' >"$work/fields"
line_of '431 Request Header Fields Too Large' 'head too large' |
    ask 'more than 64 fields' 5 -H "@$work/fields" $base/feed
awk 'BEGIN { printf "X-Long: "; for (count = 0; count < 20000; count++) printf "a" }' >"$work/fields"
line_of '431 Request Header Fields Too Large' 'head too large' |
    ask 'a head of 20,000 bytes' 5 -H "@$work/fields" $base/feed

line_of '409 Conflict' 'other id' |
    ask 'PUT with another id' 5 -X PUT -H "$atom" --data-binary "@$work/news" $base/member/1
draft='<control xmlns="http://www.w3.org/2007/app"><draft>yes</draft></control>'
line_of '403 Forbidden' draft | ask 'a draft' 5 -H "$atom" -d "$open<title/>$draft</entry>" $base/feed
# each line: the reply's line, and the body
while IFS=: read -r refusal body; do
    line_of '400 Bad Request' "$refusal" | ask "$refusal" 5 -H "$atom" -d "$body" $base/feed
done <<TEXT
entry 0 Doctype:<!DOCTYPE x><entry/>
entry 3 NotWellFormed:<a>
entry 0 NotAnEntry:<entry/>
entry 0 Missing:$open</entry>
entry 43 Xhtml:$open<title type="xhtml"/></entry>
entry 51 Twice:$open<title/><title/></entry>
entry 51 BadDate:$open<title/><updated>x</updated></entry>
entry 51 OutOfLine:$open<title/><content src="u"/></entry>
TEXT
printf '\377' >"$work/bytes"
line_of '400 Bad Request' 'entry 0 NotUtf8' |
    ask 'a body that is not UTF-8' 5 -H "$atom" --data-binary "@$work/bytes" $base/feed
line_of '400 Bad Request' 'entry 51 BadDate' |
    ask 'PUT of a bad entry' 5 -X PUT -H "$atom" -d "$open<title/><updated>x</updated></entry>" $base/member/1

# Long bodies. A client that sends more than is read still gets its whole reply.

# usage: comment BYTES, prints an entry of this length
comment() {
    awk -v bytes="$1" -v front="$open<title>Long</title><!--" -v back='--></entry>' 'BEGIN {
        printf "%s", front
        for (left = bytes - length(front) - length(back); left > 0; left--) printf "a"
        printf "%s", back
    }'
}
for bytes in 65537 1048576; do
    comment "$bytes" >"$work/long"
    line_of '413 Payload Too Large' 'body too large' |
        ask "a body of $bytes bytes" 5 -H "$atom" --data-binary "@$work/long" $base/feed
done

# curl takes its reply also from a connection that the server resets. This client sends all before it reads, and a reset
# makes it fail, because there are systems on which a reset takes the reply away. The server drops up to 256 KiB for it.
if command -v python3 >/dev/null; then
    python3 - "$port" >"$work/output" 2>"$work/errors" <<'PYTHON'
import socket, sys
client = socket.create_connection(("127.0.0.1", int(sys.argv[1])), timeout=20)
client.sendall(b"POST /feed HTTP/1.1\r\nContent-Length: 200000\r\n\r\n" + b"a" * 200000)
reply = b""
while piece := client.recv(65536):
    reply += piece
sys.stdout.write(reply.decode().replace("Content-Length: 15\r\n", "Content-Length: LENGTH\r\n"))
PYTHON
    echo $? >"$work/status"
    line_of '413 Payload Too Large' 'body too large' | compare 'a client that sends all before it reads' 0
    echo '413 5' >>"$work/lines"

    # The reply is sent while the body is still on its way, and another client is served before the body comes.
    python3 - "$port" >"$work/output" 2>"$work/errors" <<'PYTHON'
import socket, sys, time
port = int(sys.argv[1])
client = socket.create_connection(("127.0.0.1", port), timeout=20)
client.sendall(b"POST /feed HTTP/1.1\r\nContent-Length: 200000\r\n\r\n")
time.sleep(0.2)
other = socket.create_connection(("127.0.0.1", port), timeout=20)
other.sendall(b"GET /member/9 HTTP/1.1\r\n\r\n")
assert other.recv(65536).startswith(b"HTTP/1.1 404 ")
for _ in range(20):
    client.sendall(b"a" * 10000)
    time.sleep(0.01)
reply = b""
while piece := client.recv(65536):
    reply += piece
sys.stdout.write(reply.decode().replace("Content-Length: 15\r\n", "Content-Length: LENGTH\r\n"))
PYTHON
    echo $? >"$work/status"
    line_of '413 Payload Too Large' 'body too large' | compare 'a body that comes after its refusal' 0
    printf '413 5\n404 5\n' >>"$work/lines"
else
    echo 'not checked, since there is no python3: clients that send their body whatever the reply is'
fi
comment 65536 >"$work/long"
member '201 Created' 4 Long "$none" "Location: $base/member/4" |
    ask 'a body of 65,536 bytes' 6 -H "$atom" --data-binary "@$work/long" $base/feed

# A silent client has 10 seconds from its acceptance. The client behind it is served meanwhile.

mkfifo "$work/pipe" || exit 1
# with `-T .` curl doesn't wait in a read of its input, so it sees at once that the server closed the connection
curl -q -s --noproxy '*' -T . "telnet://127.0.0.1:$port" <"$work/pipe" >"$work/silent" 2>/dev/null &
silent=$!
exec 3>"$work/pipe"
# it has to be connected before the next client is
sleep 1
feed feed prev-archive=archive/1 <<TEXT | ask 'the client behind a silent one' 6 $base/feed
<sp:span first="5" last="6"/>
$(item 4 Long "$none")
$(item 3 Third "$none")
TEXT
check 'the silent client held nobody up' awk -v took="$(cat "$work/took")" 'BEGIN { exit !(took < 0.05) }'
sleep 6
check 'the silent client still has its time' kill -0 "$silent"
sleep 4.5
echo '0 6' >>"$work/lines"
if kill -0 "$silent" 2>/dev/null; then
    fail 'the silent client was cut off'
    kill "$silent"
else
    pass 'the silent client was cut off'
fi
exec 3>&-
wait "$silent" 2>/dev/null
silent=
check 'the silent client got no byte' test ! -s "$work/silent"

# Archives stay. The bodies of this part are kept until the end.

line_of '200 OK' deleted | ask 'delete of a member that an archive has' 7 -X DELETE $base/member/1
member '201 Created' 5 Fifth "$none" "Location: $base/member/5" |
    ask 'create of the eighth operation' 8 -H "$atom" -d "$open<title>Fifth</title></entry>" $base/feed
member '201 Created' 6 Sixth "$none" "Location: $base/member/6" |
    ask 'create of the ninth operation' 9 -H "$atom" -d "$open<title>Sixth</title></entry>" $base/feed
feed archive/2 current=feed prev-archive=archive/1 next-archive=archive/3 <<TEXT | ask 'the second archive' 9 $base/archive/2
<fh:archive/>
<sp:span first="5" last="8"/>
$(item 5 Fifth "$none")
$(gone 1)
$(item 4 Long "$none")
$(item 3 Third "$none")
TEXT
cp "$work/body" "$work/archive_2"
ask 'the first archive, after the second' 9 $base/archive/1 <"$work/archive"
check 'the first archive is the same to the byte' cmp -s "$work/archive_1" "$work/body"
feed feed prev-archive=archive/2 <<TEXT | ask 'the last feed' 9 $base/feed
<sp:span first="9" last="9"/>
$(item 6 Sixth "$none")
TEXT
cp "$work/body" "$work/feed"

use_up 9
await_end
compare 'the lines of the session' 0 <"$work/lines"

# usage: stored NAME FILE WORD.., compares a document that the program prints of the store with one that was served
stored() {
    label=$1 document=$2
    shift 2
    ran "$work/store" "$@"
    compare "$label" 0 <"$document"
}
stored 'show feed is what was served' "$work/feed" show feed
stored 'show archive 1 is what was served' "$work/archive_1" show archive 1
stored 'show archive 2 is what was served' "$work/archive_2" show archive 2

# The port can be bound again at once. A signal ends the server between two requests, and the store reopens.

fixed=yes
start "$work/store" 100 9
member '201 Created' 7 Seventh "$none" "Location: $base/member/7" |
    ask 'create after a restart' 10 -H "$atom" -d "$open<title>Seventh</title></entry>" $base/feed
cp "$work/body" "$work/seventh"
kill -15 "$server"
await_end
compare 'a server that is ended by a signal' 143 </dev/null
stored 'the member is there after a signal' "$work/seventh" show member 7
start "$work/store" 2 10
member '200 OK' 7 Seventh "$none" | ask 'the member after another restart' 10 $base/member/7
await_end
compare 'the lines of the last session' 0 <"$work/lines"

# A store without room

# shellcheck disable=SC2086
ran "$work/full" $init_words --window 4 --capacity 4096
echo 'ready' | compare 'init of a small store' 0
start "$work/full" 5 0
title=$(awk 'BEGIN { for (count = 0; count < 3967; count++) printf "a" }')
line_of '507 Insufficient Storage' 'full journal 85 4012 4096' |
    ask 'an entry that does not fit' 0 -H "$atom" -d "$open<title>a$title</title></entry>" $base/feed
member '201 Created' 1 "$title" "$none" "Location: $base/member/1" |
    ask 'an entry that fits' 1 -H "$atom" -d "$open<title>$title</title></entry>" $base/feed
line_of '507 Insufficient Storage' 'full journal 4096 26 4096' | ask 'delete in a full store' 1 -X DELETE $base/member/1
member '200 OK' 1 "$title" "$none" | ask 'read of a full store' 1 $base/member/1
await_end
compare 'the lines of a full store' 0 <"$work/lines"

# The service document, the list of members, and clients that begin with them

# shellcheck disable=SC2086
ran "$work/pages" $init_words
echo 'ready' | compare 'init of a store for pages' 0
start "$work/pages" 100 0 --service
service() {
    head_of '200 OK' 'application/atomsvc+xml'
    cat <<'TEXT'
<?xml version="1.0" encoding="utf-8"?>
<service xmlns="http://www.w3.org/2007/app" xmlns:atom="http://www.w3.org/2005/Atom"><workspace><atom:title>Feed</atom:title><collection href="http://feed.example/feed"><atom:title>Feed</atom:title><accept>application/atom+xml;type=entry</accept></collection></workspace></service>
TEXT
}
listing() {
    head_of '200 OK' 'text/plain;charset=utf-8'
    cat
}
service | ask 'the service document' 0 $base/service
listing </dev/null | ask 'the list without members' 0 $base/members
number=0
for title in a b; do
    number=$((number + 1))
    member '201 Created' $number $title "$none" "Location: $base/member/$number" |
        ask "create of $title" $number -H "$atom" -d "$open<title>$title</title></entry>" $base/feed
done
member '200 OK' 1 c "$none" | ask 'edit of a' 3 -X PUT -H "$atom" -d "$open<title>c</title></entry>" $base/member/1
member '201 Created' 3 d "$none" "Location: $base/member/3" |
    ask 'create of d' 4 -H "$atom" -d "$open<title>d</title></entry>" $base/feed
line_of '200 OK' deleted | ask 'delete of d' 5 -X DELETE $base/member/3
listing <<TEXT | ask 'the list of members' 5 $base/members
3 $base/member/1
2 $base/member/2
TEXT
service | ask 'the service document by the whole address' 5 --request-target $base/service $base/
line_of '405 Method Not Allowed' 'not allowed' 'Allow: GET' |
    ask 'POST to the list' 5 -H "$atom" -d "$open<title/></entry>" $base/members
line_of '405 Method Not Allowed' 'not allowed' 'Allow: GET' | ask 'DELETE of the service document' 5 -X DELETE $base/service
line_of '501 Not Implemented' 'not implemented' | ask 'another method for a page' 5 -X BREW $base/service
line_of '404 Not Found' 'not found' | ask 'a page that there is not' 5 $base/services

# usage: discovers NAME PATH REPLY STATUS, compares the output of discover with the text on standard input
discovers() {
    ran "$work/empty" discover "http://127.0.0.1:$port/$2"
    compare "$1" "$4"
    echo "$3 5" >>"$work/lines"
}
echo "collection $base/feed entries" | discovers 'discover' service 200 0
echo "missing http://127.0.0.1:$port/nothing" | discovers 'discover of nothing' nothing 404 3
echo 'bad service 39' | discovers 'discover of a feed' feed 200 10
use_up 5
await_end
compare 'the lines of a session with pages' 0 <"$work/lines"

# Perl's client for Atom's publishing protocol finds the collection by the service document. It sends content that is
# XML as xhtml, so this content isn't, and it reads a text without `type` as base64, so it is HTML.
if perl -MAtompub::Client -e 1 2>/dev/null; then
    start "$work/pages" 8 5 --service
    http_proxy="http://127.0.0.1:$port/" perl - "$base" >"$work/output" 2>"$work/errors" <<'PERL'
use strict;
use Atompub::Client;
use XML::Atom::Entry;
my $base = shift;
my $client = Atompub::Client->new;
$client->{ua}->proxy('http', $ENV{http_proxy});
my $service = $client->getService("$base/service") or die $client->errstr;
my ($workspace) = $service->workspaces;
my ($collection) = $workspace->collections;
printf "%s: %s\n", $collection->title, $collection->href;
my $entry = XML::Atom::Entry->new;
$entry->title('From Perl');
$entry->content('<p>a & b');
my $address = $client->createEntry($collection->href, $entry) or die $client->errstr;
print "$address\n";
my $read = $client->getEntry($address) or die $client->errstr;
printf "%s: %s\n", $read->title, $read->content->body;
$read->title('Edited by Perl');
$client->updateEntry($address, $read) or die $client->errstr;
my $feed = $client->getFeed($collection->href) or die $client->errstr;
print join(', ', map { $_->title } $feed->entries), "\n";
$client->deleteEntry($address) or die $client->errstr;
print "deleted\n";
PERL
    echo $? >"$work/status"
    printf 'Feed: %s/feed\n%s/member/4\nFrom Perl: <p>a & b\nEdited by Perl, c, b\ndeleted\n' $base $base |
        compare "Perl's Atompub" 0
    printf '200 5\n201 6\n200 6\n200 7\n200 7\n200 8\n' >>"$work/lines"
    use_up 8
    await_end
    compare "the lines of Perl's Atompub" 0 <"$work/lines"
else
    echo "not checked, since there is no Perl client: Atompub (Debian's libatompub-perl)"
fi

# The example entry of RFC 4287 section 1.1, whose content is xhtml with a base, and a relative link in it: it is refused as
# it is, and taken as what deploy/entry-as-html.xsl makes of it

cat >"$work/example" <<'TEXT'
<entry xmlns="http://www.w3.org/2005/Atom">
  <title>Atom draft-07 snapshot</title>
  <link rel="alternate" type="text/html" href="http://example.org/2005/04/02/atom"/>
  <link rel="enclosure" type="audio/mpeg" length="1337" href="http://example.org/audio/ph34r_my_podcast.mp3"/>
  <id>tag:example.org,2003:3.2397</id>
  <updated>2005-07-31T12:29:29Z</updated>
  <published>2003-12-13T08:29:29-04:00</published>
  <author>
    <name>Mark Pilgrim</name>
    <uri>http://example.org/</uri>
    <email>f8dy@example.com</email>
  </author>
  <contributor><name>Sam Ruby</name></contributor>
  <contributor><name>Joe Gregorio</name></contributor>
  <content type="xhtml" xml:lang="en" xml:base="http://diveintomark.org/">
    <div xmlns="http://www.w3.org/1999/xhtml"><p><i>[Update: The <a href="draft">Atom draft</a> is finished.]</i></p></div>
  </content>
</entry>
TEXT
# shellcheck disable=SC2086
ran "$work/example_store" $init_words
echo 'ready' | compare 'init of a store for an example' 0
start "$work/example_store" 3 0
offset=$(LC_ALL=C grep -abo '<content' "$work/example" | cut -d : -f 1)
line_of '400 Bad Request' "entry $offset Xhtml" |
    ask 'an entry with xhtml' 0 -H "$atom" --data-binary "@$work/example" $base/feed
if command -v xsltproc >/dev/null; then
    xsltproc "$top/deploy/entry-as-html.xsl" "$work/example" >"$work/as_html"
    {
        head_of '201 Created' 'application/atom+xml;type=entry' "Location: $base/member/1"
        echo '<?xml version="1.0" encoding="utf-8"?>'
        sed -e ':all' -e 'N' -e '$!b all' -e 's/\n//g' <<'TEXT'
<entry xmlns="http://www.w3.org/2005/Atom" xmlns:app="http://www.w3.org/2007/app">
<id>urn:uuid:6d1f0c5a-93be-8c27-8000-000000000001</id><title>Atom draft-07 snapshot</title><updated>NOW</updated>
<published>NOW</published><app:edited>NOW</app:edited>
<author><name>Mark Pilgrim</name><uri>http://example.org/</uri><email>f8dy@example.com</email></author>
<contributor><name>Sam Ruby</name></contributor><contributor><name>Joe Gregorio</name></contributor>
<link rel="edit" href="http://feed.example/member/1"/><link href="http://example.org/2005/04/02/atom" type="text/html"/>
<link rel="enclosure" href="http://example.org/audio/ph34r_my_podcast.mp3" type="audio/mpeg" length="1337"/>
<content type="html">&lt;p&gt;&lt;i&gt;[Update: The &lt;a href="http://diveintomark.org/draft"&gt;Atom draft
&lt;/a&gt; is finished.]&lt;/i&gt;&lt;/p&gt;</content></entry>
TEXT
    } | ask 'the entry as html' 1 -H "$atom" --data-binary "@$work/as_html" $base/feed
else
    echo 'passed over: there is no xsltproc, so an entry with xhtml is not posted as html'
    use_up 0
fi
await_end
compare 'the lines of the example' 0 <"$work/lines"

counts
