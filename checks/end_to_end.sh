#!/bin/sh
# Runs the built program over real files and pipes, and compares its exit statuses and its output with expected texts.
# Usage: checks/end_to_end.sh. It ends with 0 if all agree. Timestamps of the clock are masked as NOW.
top=$(CDPATH='' cd -- "$(dirname -- "$0")/.." && pwd) || exit 1
tool=$top/feed_tool
work=$(mktemp -d) || exit 1
trap 'rm -rf "$work"' EXIT
: >"$work/passed"
: >"$work/failed"

"$top/prove" || exit 1

masked() { sed -E 's/[0-9]{4}-[0-9]{2}-[0-9]{2}T[0-9]{2}:[0-9]{2}:[0-9]{2}(\.[0-9]{3})?Z/NOW/g'; }

# compares $work/status and $work/output with an expected status and the expected text on standard input; it counts in
# files, since it runs at the end of pipes
compare() {
    cat >"$work/expected"
    masked <"$work/output" >"$work/masked"
    if [ "$(cat "$work/status")" = "$2" ] && cmp -s "$work/masked" "$work/expected"; then
        echo "$1" >>"$work/passed"
    else
        echo "$1" >>"$work/failed"
        printf 'FAILED: %s: status %s, expected %s\n' "$1" "$(cat "$work/status")" "$2"
        diff "$work/expected" "$work/masked" | head -n 20
    fi
}

# runs the program with the words given, on $work/input
ran() {
    "$tool" "$@" <"$work/input" >"$work/output" 2>"$work/errors"
    echo $? >"$work/status"
}

feed() {
    cat <<'TEXT'
<?xml version="1.0" encoding="utf-8"?>
<feed xmlns="http://www.w3.org/2005/Atom" xmlns:fh="http://purl.org/syndication/history/1.0" xmlns:at="http://purl.org/atompub/tombstones/1.0" xmlns:app="http://www.w3.org/2007/app" xmlns:sp="urn:archived-feed:span:1">
<id>urn:uuid:6d1f0c5a-93be-4c27-8d10-2b7f9e4a5c36</id>
<title>Feed</title>
<updated>NOW</updated>
<author><name>Editor</name></author>
<link rel="self" href="http://feed.example/feed"/>
TEXT
    cat
    echo '</feed>'
}

usage='usage: feed_tool init, apply, show, serve, mirror, audit, drill, foreign, discover, relay, scrub'

# the example of the README, and what show prints of its document
printf 'add Signed kernel images\nadd Mirror list\nchange 2 Mirror list <updated> & signed\nremove 1\n' >"$work/input"
ran apply 4
feed >"$work/text" <<'TEXT'
<sp:span first="1" last="4"/>
<at:deleted-entry ref="urn:uuid:6d1f0c5a-93be-8c27-8000-000000000001" when="NOW"/>
<entry><id>urn:uuid:6d1f0c5a-93be-8c27-8000-000000000002</id><title>Mirror list &lt;updated&gt; &amp; signed</title><updated>NOW</updated><app:edited>NOW</app:edited><link rel="edit" href="http://feed.example/member/2"/><content></content></entry>
TEXT
compare 'apply 4 of the example' 0 <"$work/text"
cp "$work/output" "$work/document"

cp "$work/document" "$work/input"
ran show
compare 'show of the example' 0 <<'TEXT'
subscription
feed 6d1f0c5a-93be-4c27-8d10-2b7f9e4a5c36
span 1 4
prev 0
updated NOW
gone 1 NOW
entry 2 NOW Mirror list &lt;updated&gt; &amp; signed
TEXT

# a document of which one quote is changed is refused where that line begins
sed "7s/\"self\"/'self'/" "$work/document" >"$work/input"
ran show
echo "bad document $(head -n 6 "$work/document" | wc -c)" | compare 'show of another quote' 10

printf 'add a\nadd b\nadd c\n' >"$work/input"
ran apply 1
feed >"$work/text" <<'TEXT'
<link rel="prev-archive" href="http://feed.example/archive/2"/>
<sp:span first="3" last="3"/>
<entry><id>urn:uuid:6d1f0c5a-93be-8c27-8000-000000000003</id><title>c</title><updated>NOW</updated><app:edited>NOW</app:edited><link rel="edit" href="http://feed.example/member/3"/><content></content></entry>
TEXT
compare 'apply 1' 0 <"$work/text"

: >"$work/input"
ran apply 4
feed >"$work/text" <<'TEXT'
<sp:span first="1" last="0"/>
TEXT
compare 'apply 4 of nothing' 0 <"$work/text"
ran show
echo 'bad document 0' | compare 'show of nothing' 10

# refusals
printf 'add a\nsubtract\n' >"$work/input"
ran apply 4
echo 'bad line 2' | compare 'a bad line' 10
printf 'add a\nremove 2\n' >"$work/input"
ran apply 4
echo 'line 2 not found 2' | compare 'a member that was never made' 12
printf 'add a\nremove 1\nchange 1 b\n' >"$work/input"
ran apply 4
echo 'line 3 deleted 1' | compare 'a deleted member' 12
head -c 67108865 /dev/zero >"$work/input"
ran show
echo 'input too long' | compare 'show of too much' 10

# words that name no command, with a byte that isn't UTF-8 too
: >"$work/input"
ran
echo "$usage" | compare 'no words' 2
ran apply 101
echo "$usage" | compare 'a window of 101' 2
ran "$(printf '\377')"
echo "$usage" | compare 'a word that is not UTF-8' 2
ran show "$(printf 'x\377')"
echo "$usage" | compare 'a word behind a command that is not UTF-8' 2
cp "$top/out/feed_tool" "$work/$(printf 'tool\377')"
"$work/$(printf 'tool\377')" show <"$work/document" >"$work/output" 2>"$work/errors"
echo $? >"$work/status"
echo "$usage" | compare 'a path of the program that is not UTF-8' 2

# a store in a folder of its own: stored WORDS.. runs the program there
mkdir "$work/store"
stored() {
    (cd "$work/store" && "$tool" "$@" <"$work/input" >"$work/output" 2>"$work/errors"; echo $? >"$work/status")
}
# the mirror's file lies in a folder of its own
mirrored() {
    mkdir -p "$work/mirror"
    (cd "$work/mirror" && "$tool" mirror "$@" <"$work/input" >"$work/output" 2>"$work/errors"; echo $? >"$work/status")
}
# prints the summary of the document that was printed
summarized() {
    "$tool" show <"$work/output" >"$work/summary" 2>"$work/errors" && cp "$work/summary" "$work/output"
}
init_words="init --base http://feed.example/ --uuid 6d1f0c5a-93be-4c27-8d10-2b7f9e4a5c36 --title Feed --author Editor"

: >"$work/input"
stored show feed
echo 'not init' | compare 'a folder without a store' 6
# shellcheck disable=SC2086
stored $init_words --window 4
echo 'ready' | compare 'init' 0
# shellcheck disable=SC2086
stored $init_words
echo 'already init' | compare 'init of a store' 6
printf 'add a\nadd b\nadd c\nadd d\n' >"$work/input"
stored apply
summarized
compare 'apply of a window' 0 <<'TEXT'
subscription
feed 6d1f0c5a-93be-4c27-8d10-2b7f9e4a5c36
span 1 4
prev 0
updated NOW
entry 4 NOW d
entry 3 NOW c
entry 2 NOW b
entry 1 NOW a
TEXT
: >"$work/input"
stored show archive 1
echo 'archive 1 not sealed 0' | compare 'an archive that is not sealed' 12
printf 'add e' >"$work/input"
stored apply
summarized
compare 'apply past a window' 0 <<'TEXT'
subscription
feed 6d1f0c5a-93be-4c27-8d10-2b7f9e4a5c36
span 5 5
prev 1
updated NOW
entry 5 NOW e
TEXT
: >"$work/input"
stored show archive 1
cp "$work/output" "$work/archive"
summarized
compare 'a sealed archive' 0 <<'TEXT'
archive 1
feed 6d1f0c5a-93be-4c27-8d10-2b7f9e4a5c36
span 1 4
prev 0
updated NOW
entry 4 NOW d
entry 3 NOW c
entry 2 NOW b
entry 1 NOW a
TEXT
# a new title and a new size of windows, in a store of each format: the format is the first byte of the head, which is the
# sixth byte of the journal
settings() {
    rm -rf "$work/settings" && mkdir "$work/settings"
    # shellcheck disable=SC2086
    (cd "$work/settings" && "$tool" $init_words --window 4 >"$work/output" 2>&1)
    printf '%b' "\\00$1" | dd of="$work/settings/journal" bs=1 seek=5 conv=notrunc 2>/dev/null
    printf 'add a\nadd b\ntitle New\nadd c\nadd d\n' >"$work/input"
    (cd "$work/settings" && "$tool" apply <"$work/input" >"$work/output" 2>"$work/errors"; echo $? >"$work/status")
}
setting() {
    (cd "$work/settings" && "$tool" "$@" <"$work/input" >"$work/output" 2>"$work/errors"; echo $? >"$work/status")
}
for format in 1 2 3; do
    settings "$format"
    feed <<'TEXT' | sed 's/>Feed</>New</' >"$work/text"
<link rel="prev-archive" href="http://feed.example/archive/1"/>
<sp:span first="5" last="5"/>
<entry><id>urn:uuid:6d1f0c5a-93be-8c27-8000-000000000004</id><title>d</title><updated>NOW</updated><app:edited>NOW</app:edited><link rel="edit" href="http://feed.example/member/4"/><content></content></entry>
TEXT
    compare "a new title in a store of format $format" 0 <"$work/text"
    : >"$work/input"
    setting show archive 1
    cp "$work/output" "$work/first_archive"
    summarized
    compare "its archive, format $format" 0 <<'TEXT'
archive 1
feed 6d1f0c5a-93be-4c27-8d10-2b7f9e4a5c36
span 1 4
prev 0
updated NOW
entry 3 NOW c
entry 2 NOW b
entry 1 NOW a
TEXT
    grep -c '<title>New</title>' "$work/first_archive" >"$work/output"
    echo 1 | compare "the title of its archive, format $format" 0
    printf 'window 2\ntitle Next\nadd e\nadd f\nadd g\nadd h\n' >"$work/input"
    setting apply
    summarized
    compare "a new window in a store of format $format" 0 <<'TEXT'
subscription
feed 6d1f0c5a-93be-4c27-8d10-2b7f9e4a5c36
span 11 11
prev 3
updated NOW
entry 8 NOW h
TEXT
    : >"$work/input"
    setting show archive 1
    cmp "$work/first_archive" "$work/output" >"$work/status" && echo 0 >"$work/status"
    : >"$work/output"
    compare "its first archive stays, format $format" 0 </dev/null
done
settings 4
echo 'bad store journal 0 0' | compare 'a store of an unknown format' 6

# the pile of the store has its two documents
offered() {
    echo "http://feed.example/$1 $(($(wc -c <"$2")))"
    cat "$2"
    echo
}
stored show feed
cp "$work/output" "$work/feed"
stored show pile
{ echo 'pile 1'; offered feed "$work/feed"; offered archive/1 "$work/archive"; } >"$work/pile"
masked <"$work/pile" | compare 'show pile' 0
# a mirror of that pile is complete and stays so, and one without the archive names it
cp "$work/output" "$work/input"
mirrored --base http://feed.example/ --report
compare 'mirror of a pile' 0 <<'TEXT'
offers 2 0 0 0
entry 1 NOW a
entry 2 NOW b
entry 3 NOW c
entry 4 NOW d
entry 5 NOW e
complete 5 5
TEXT
echo 'pile 1' >"$work/input"
mirrored --base http://feed.example/ --report
compare 'mirror that holds all' 0 <<'TEXT'
offers 0 0 0 0
entry 1 NOW a
entry 2 NOW b
entry 3 NOW c
entry 4 NOW d
entry 5 NOW e
complete 5 5
TEXT
mirrored --base http://other.example/ --report
echo 'other base http://feed.example/' | compare 'mirror of another base' 12
# without --report it prints its certificate; the digests are those of sha256sum, of the documents and of the member documents
digest() { sha256sum "$1" | cut -d ' ' -f 1; }
for number in 1 2 3 4 5; do
    stored show member $number
    cat "$work/output"
done >"$work/members"
{
    echo 'coverage 1'
    echo 'feed 6d1f0c5a-93be-4c27-8d10-2b7f9e4a5c36 http://feed.example/'
    echo 'version 5'
    echo "document http://feed.example/feed $(digest "$work/feed")"
    echo "document http://feed.example/archive/1 $(digest "$work/archive")"
    echo "live 5 $(digest "$work/members")"
    echo 'end'
} >"$work/certificate"
mirrored --base http://feed.example/
compare 'the certificate of a mirror' 0 <"$work/certificate"
# an audit of the certificate over the pile, in another order of the documents, and of changed ones
stored show pile
cp "$work/output" "$work/documents"
cat "$work/certificate" "$work/documents" >"$work/input"
ran audit
echo 'accepted 5 5' | compare 'audit' 0
{ cat "$work/certificate"; echo 'pile 1'; offered archive/1 "$work/archive"; offered feed "$work/feed"; } >"$work/input"
ran audit
echo 'accepted 5 5' | compare 'audit of another order' 0
{ cat "$work/certificate"; echo 'pile 1'; offered feed "$work/feed"; } >"$work/input"
ran audit
echo 'no document http://feed.example/archive/1' | compare 'audit without a document' 3
sed 's/<title>a</<title>A</' "$work/archive" >"$work/changed"
{ cat "$work/certificate"; echo 'pile 1'; offered feed "$work/feed"; offered archive/1 "$work/changed"; } >"$work/input"
ran audit
echo "digest differs http://feed.example/archive/1 $(digest "$work/changed")" | compare 'audit of a changed document' 3
{ grep -v archive/1 "$work/certificate"; cat "$work/documents"; } >"$work/input"
ran audit
echo 'not the first 5' | compare 'audit of a certificate without its last line' 3
{ sed 's/^live 5/live 4/' "$work/certificate"; cat "$work/documents"; } >"$work/input"
ran audit
echo "live differs 5 $(digest "$work/members")" | compare 'audit of another number of entries' 3
{ sed 's/^version/Version/' "$work/certificate"; cat "$work/documents"; } >"$work/input"
ran audit
echo 'bad certificate 3' | compare 'audit of a bad certificate' 10
cp "$work/certificate" "$work/input"
ran audit
echo 'bad pile 0' | compare 'audit without a pile' 10
{ cat "$work/certificate"; echo 'pile 1'; awk 'BEGIN { while (count++ <= 100000) print "a 0\n" }'; } >"$work/input"
ran audit
echo 'too many offers' | compare 'audit of too many documents' 10
rm "$work/mirror/mirror"
{ echo 'pile 1'; offered feed "$work/feed"; offered feed "$work/feed"; offered feed "$work/archive"; } >"$work/input"
mirrored --report --base=http://feed.example/
compare 'mirror without the archive' 3 <<'TEXT'
refused http://feed.example/feed WrongAddress
offers 1 1 0 1
missing http://feed.example/archive/1
TEXT
{ echo 'pile 1'; offered feed "$work/feed"; echo 'http://feed.example/archive/1 9'; } >"$work/input"
mirrored --base http://feed.example/ --report
echo "bad pile $(($(wc -c <"$work/input") - 32))" | compare 'mirror of a pile that is cut' 10
{ echo 'pile 1'; offered feed "$work/feed"; } >"$work/input"
rm "$work/mirror/mirror"
mirrored --base http://feed.example/
echo 'missing http://feed.example/archive/1' | compare 'no certificate without the archive' 3
: >"$work/input"
mirrored --base http://feed.example/ --report=yes
echo "$usage" | compare 'mirror with a value for --report' 2
ran audit 5
echo "$usage" | compare 'audit with a number' 2
# a drill, whose summary a program in Python computed from the rules
ran drill 0 1
compare 'drill' 0 <<'TEXT'
operations 1
version 1
archives 0
stops 0
mirror stops 0
complete 1 1
live 5fa094a926c9a685f0f41fd7a4b7e10c64c1a00d8be3a06016db5cea897a38b6
TEXT
ran drill 7 1000
compare 'a long drill' 0 <<'TEXT'
operations 1000
version 1000
archives 62
stops 142
mirror stops 66
complete 1000 253
live b95f954e46e0fa7b5a90c593265cf1314a870918bdd5cb3af1022db69e038114
TEXT
ran drill 7
echo "$usage" | compare 'drill without a number of requests' 2
ran drill 7 2001
echo "$usage" | compare 'drill of too many requests' 2
printf 'remove 5\nsubtract\nadd f\n' >"$work/input"
stored apply
echo 'bad line 2' | compare 'a bad line on a store' 10
: >"$work/input"
stored show member 5
echo 'member 5 deleted' | compare 'a deleted member of a store' 12
stored show member 6
echo 'member 6 not found' | compare 'a member that a store never had' 12

# a crash: the journal ends within the frame of its last operation
head -c $(($(wc -c <"$work/store/journal") - 10)) "$work/store/journal" >"$work/cut" && cp "$work/cut" "$work/store/journal"
stored show member 5
head -c 38 "$work/output" >"$work/front" && cp "$work/front" "$work/output"
printf '<?xml version="1.0" encoding="utf-8"?>' | compare 'a store whose last operation was cut' 0
printf 'add f\n' >"$work/input"
stored apply
summarized
compare 'an operation after the cut' 0 <<'TEXT'
subscription
feed 6d1f0c5a-93be-4c27-8d10-2b7f9e4a5c36
span 5 6
prev 1
updated NOW
entry 6 NOW f
entry 5 NOW e
TEXT

# damage: the first byte of the archive, which a repair brings back
: >"$work/input"
stored scrub
echo 'sound 6 1' | compare 'scrub of a sound store' 0
stored show archive 1
masked <"$work/output" >"$work/text"
printf '?' | dd of="$work/store/sealed" bs=1 seek=5 conv=notrunc 2>/dev/null
stored scrub
echo 'bad seal 1' | compare 'scrub of a damaged archive' 6
stored scrub --repair
echo 'repaired 0 1' | compare 'scrub --repair' 0
stored show archive 1
compare 'a repaired archive' 0 <"$work/text"

# damage: the first byte of the second operation, whose payload begins after the frames of the head and of the first
printf '\011' | dd of="$work/store/journal" bs=1 seek=134 conv=notrunc 2>/dev/null
stored apply
echo 'bad store journal 2 0' | compare 'a damaged journal' 6
stored scrub --repair
echo 'bad store journal 2 0' | compare 'scrub --repair of a damaged journal' 6

# stores that have no room
for options in '--window 4' '--window 1'; do
    rm -f "$work/store/journal" "$work/store/sealed" "$work/store/mirror"
    : >"$work/input"
    # shellcheck disable=SC2086
    stored $init_words $options --capacity 4096
    case $options in
        *4) awk 'BEGIN { while (count++ < 1024) title = title "a"; while (lines++ < 4) print "add " title }' >"$work/input"
            full='full journal 3289 1068 4096' ;;
        *) seq 10 | sed 's/.*/add Hello/' >"$work/input"
            full='full sealed 3793 964 4096' ;;
    esac
    stored apply
    echo "$full" | sed 's/^full sealed [0-9]* [0-9]*/full sealed/' >"$work/full"
    sed -i 's/^full sealed [0-9]* [0-9]*/full sealed/' "$work/output"
    compare "a store without room, $options" 11 <"$work/full"
done

# a second program on the same store while the first waits for its input
mkfifo "$work/pipe"
(cd "$work/store" && exec "$tool" apply <"$work/pipe" >"$work/first" 2>&1) &
exec 3>"$work/pipe"
sleep 1
: >"$work/input"
stored show feed
echo 'disk fault' | compare 'a store that another program has open' 4
exec 3>&-
wait

# failing calls
"$tool" apply 4 <"$work" >"$work/output" 2>"$work/errors"
echo $? >"$work/status"
echo 'input fault' | compare 'a folder as input' 9
printf 'add a\n' >"$work/input"
"$tool" apply 4 <"$work/input" >&- 2>"$work/errors"
echo $? >"$work/status"
: >"$work/output"
compare 'a closed output' 8 </dev/null
if [ -e /dev/full ]; then
    "$tool" apply 4 <"$work/input" >/dev/full 2>"$work/errors"
    echo $? >"$work/status"
    compare 'a full device as output' 8 </dev/null
fi
# memory runs out: the shell gives the program 40,000 KiB, and the input needs more
head -c 60000000 /dev/zero >"$work/input"
# shellcheck disable=SC3045 # The shells of Linux have this limit.
(ulimit -v 40000 && "$top/out/feed_tool" show <"$work/input" >"$work/output" 2>"$work/errors"; echo $? >"$work/status")
echo 'no memory' | compare 'out of memory' 5

# memory runs out while the words are read: the program's first allocation fails, in a run that the kit makes
(cd "$top/crates/feed_tool" && rt try --fail-alloc 1 -- apply 4 </dev/null) >"$work/tried" 2>&1
grep -x 'no memory' "$work/tried" >"$work/output"
sed -n 's/^run=ended status=\([0-9]*\).*/\1/p' "$work/tried" >"$work/status"
echo 'no memory' | compare 'out of memory for the words' 5

# the launcher through a symbolic link, from another folder
ln -s "$tool" "$work/linked"
(cd / && printf 'add a\n' | "$work/linked" apply 101 >"$work/output" 2>"$work/errors"; echo $? >"$work/status")
echo "$usage" | compare 'a symbolic link' 2
(cd / && PATH=/usr/bin:/bin && export PATH && "$work/linked" show <"$work/document" >"$work/output" 2>"$work/errors"; echo $? >"$work/status")
compare 'the built program without rt' 0 <<'TEXT'
subscription
feed 6d1f0c5a-93be-4c27-8d10-2b7f9e4a5c36
span 1 4
prev 0
updated NOW
gone 1 NOW
entry 2 NOW Mirror list &lt;updated&gt; &amp; signed
TEXT

echo "$(wc -l <"$work/passed") passed, $(wc -l <"$work/failed") failed"
[ ! -s "$work/failed" ]
