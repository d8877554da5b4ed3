#!/bin/sh
# Runs nginx with deploy/nginx.conf before the server, and tries what docs/OPERATING.md says of it: HEAD, `Expect`, bodies in
# chunks, `Date`, no `Host`, a kept connection, ranges, compression, the redirect of writers, the password, `Location`, and
# how old a reply is. Only the ports, the names of files and the folder of the cache are changed.
# Usage: checks/proxy.sh [PROGRAM]. PROGRAM is run in place of the one of this repository. It ends with 0 if all agrees, with
# 1 if not, and with 2 if there is no nginx, curl or openssl. It takes ten seconds.
top=$(CDPATH='' cd -- "$(dirname -- "$0")/.." && pwd) || exit 1
tool=${1:-$top/out/feed_tool}
case $tool in
    /*) ;;
    */*) tool=$(CDPATH='' cd -- "$(dirname -- "$tool")" && pwd)/$(basename -- "$tool") || exit 1 ;;
esac
for needed in nginx curl openssl; do
    command -v "$needed" >/dev/null || { echo "proxy.sh: needs $needed" >&2; exit 2; }
done
[ -n "$1" ] || "$top/prove" || exit 1

work=$(mktemp -d) || exit 1
server=
proxy=
finish() {
    [ -z "$proxy" ] || kill "$proxy" 2>/dev/null
    [ -z "$server" ] || kill "$server" 2>/dev/null
    wait
    rm -rf "$work"
}
trap finish EXIT
trap 'exit 1' HUP INT TERM
passed=0
failed=0

# usage: same NAME EXPECTED GOT
same() {
    if [ "$2" = "$3" ]; then
        passed=$((passed + 1))
    else
        failed=$((failed + 1))
        printf 'FAILED: %s: %s, expected %s\n' "$1" "$3" "$2"
    fi
}

# Ports below those that the system gives to clients, so that no client of this machine has them by chance.
port=$(awk -v seed=$$ 'BEGIN { srand(seed); print 10000 + int(rand() * 20000) }')
plain=$((port + 1))
tls=$((port + 2))

openssl req -x509 -newkey rsa:2048 -nodes -days 2 -subj /CN=feed.example -addext subjectAltName=DNS:feed.example \
    -keyout "$work/feed.key" -out "$work/feed.crt" 2>/dev/null || exit 1
printf 'editor:%s\n' "$(openssl passwd -6 secret)" >"$work/feed.users"
{
    # As root, nginx would become a user who can't read this folder.
    [ "$(id -u)" -ne 0 ] || echo 'user root;'
    printf 'daemon off;\npid %s/pid;\nerror_log %s/errors;\nevents { }\nhttp {\naccess_log off;\n' "$work" "$work"
    for kind in client_body proxy fastcgi uwsgi scgi; do echo "${kind}_temp_path $work/$kind;"; done
    sed -e "s|listen 80;|listen 127.0.0.1:$plain;|" -e "s|listen 443 ssl;|listen 127.0.0.1:$tls ssl;|" \
        -e "s|127\.0\.0\.1:8080|127.0.0.1:$port|" -e "s|/etc/nginx|$work|" -e "s|/var/cache/nginx-feed|$work/cache|" \
        "$top/deploy/nginx.conf"
    echo '}'
} >"$work/nginx.conf"

mkdir "$work/store"
(cd "$work/store" && "$tool" init --base http://feed.example/ --uuid 6d1f0c5a-93be-4c27-8d10-2b7f9e4a5c36 --title News \
    --author Editor --window 2) >/dev/null || exit 1
serve() {
    (cd "$work/store" && exec "$tool" serve --listen "127.0.0.1:$port" --requests 1000) >/dev/null &
    server=$!
}
# curl without the settings of its user. The names and ports of the base lead to nginx.
ask() {
    curl -q -s --noproxy '*' --max-time 20 --cacert "$work/feed.crt" --connect-to "feed.example:80:127.0.0.1:$plain" \
        --connect-to "feed.example:443:127.0.0.1:$tls" "$@"
}
status_of() { ask -o /dev/null -w '%{http_code}' "$@"; }
# usage: field NAME WORD_OF_CURL.., the value of a field of the reply
field() {
    name=$1
    shift
    ask -o /dev/null -D - "$@" | tr -d '\r' | sed -n "s/^$name: //Ip"
}
atom='Content-Type: application/atom+xml;type=entry'
entry() { printf '<entry xmlns="http://www.w3.org/2005/Atom"><title>%s</title></entry>' "$1"; }
http=http://feed.example
https=https://feed.example

serve
nginx -c "$work/nginx.conf" -e "$work/errors" &
proxy=$!
tries=0
until [ "$(status_of $http/feed)" = 200 ]; do
    tries=$((tries + 1))
    if [ "$tries" -gt 100 ] || ! kill -0 "$proxy"; then
        cat "$work/errors"
        echo 'FAILED: nginx does not answer'
        exit 1
    fi
    sleep 0.1
done

# writers
same 'a post without a password' 401 "$(status_of -H "$atom" -d "$(entry One)" $https/feed)"
same 'a post' 201 "$(status_of -u editor:secret -H "$atom" -d "$(entry One)" $https/feed)"
same 'a location' "$https/member/2" "$(field Location -u editor:secret -H "$atom" -d "$(entry Two)" $https/feed)"
same 'a post in chunks' 201 \
    "$(status_of -u editor:secret -H 'Transfer-Encoding: chunked' -H "$atom" -d "$(entry Three)" $https/feed)"
took=$(ask -o /dev/null -w '%{time_total}' -u editor:secret -H 'Expect: 100-continue' -H "$atom" -d "$(entry Four)" \
    $https/feed)
same 'a post with Expect takes no second' yes "$(echo "$took" | awk '{ print $1 < 0.9 ? "yes" : $1 }')"
same 'a put at port 80' "308 $https/member/1" \
    "$(ask -o /dev/null -w '%{http_code} %{redirect_url}' -X PUT -d x $http/member/1)"
same 'a put that follows it' 200 \
    "$(status_of -L --location-trusted -u editor:secret -X PUT -H "$atom" -d "$(entry New)" $http/member/1)"
same 'a put that follows it without its password' 401 \
    "$(status_of -L -u editor:secret -X PUT -H "$atom" -d "$(entry New)" $http/member/1)"
ask -o /dev/null $https/member/2
ask -o /dev/null -u editor:secret -X PUT -H "$atom" -d "$(entry 'Two, new')" $https/member/2
same 'a writer reads its own change' 1 "$(ask $https/member/2 | grep -c '<title>Two, new</title>')"
same 'a body that is too long' 413 \
    "$(head -c 65537 /dev/zero | status_of -u editor:secret -H "$atom" --data-binary @- $https/feed)"

# readers
for url in $http $https; do
    same "HEAD of the feed, $url" 200 "$(status_of -I "$url/feed")"
    same "HEAD of an archive, $url" 200 "$(status_of -I "$url/archive/1")"
    same "HEAD of a member, $url" 200 "$(status_of -I "$url/member/2")"
    same "the life of an archive, $url" 'public, max-age=31536000, immutable' "$(field Cache-Control "$url/archive/1")"
    same "the life of the feed, $url" no-cache "$(field Cache-Control "$url/feed")"
    same "an archive that is not sealed, $url" '404 ' \
        "$(status_of "$url/archive/99") $(field Cache-Control "$url/archive/99")"
    same "a range, $url" '206 10' "$(ask -o /dev/null -w '%{http_code} %{size_download}' -r 0-9 "$url/archive/1")"
    same "compression, $url" gzip "$(field Content-Encoding -H 'Accept-Encoding: gzip' "$url/archive/1")"
    same "the date, $url" 1 "$(field Date "$url/feed" | grep -c GMT)"
    same "a kept connection, $url" '1 0 ' \
        "$(ask -o /dev/null -o /dev/null -w '%{num_connects} ' "$url/feed" "$url/archive/1")"
    ask "$url/archive/1" >"$work/archive"
    same "a compressed archive, $url" "$(cksum <"$work/archive")" "$(ask --compressed "$url/archive/1" | cksum)"
done
same 'no Host' 400 "$(status_of -H 'Host:' $http/feed)"
same 'no ETag' '' "$(field ETag $http/feed)"

# how old a reply is
fresh() { ask $http/feed | grep -c "<title>$1</title>"; }
sleep 2.1
ask -o /dev/null $http/feed
ask -o /dev/null -u editor:secret -H "$atom" -d "$(entry Late)" $https/feed
sleep 2.1
same 'the feed after two seconds' 1 "$(fresh Late)"
kill "$server"
wait "$server" 2>/dev/null
sleep 2.1
same 'the feed while the server is down' 1 "$(fresh Late)"
same 'a cached archive while the server is down' 200 "$(status_of $http/archive/1)"
same 'a post while the server is down' 502 "$(status_of -u editor:secret -H "$atom" -d "$(entry None)" $https/feed)"
serve
tries=0
until curl -q -s --noproxy '*' -o /dev/null "http://127.0.0.1:$port/feed" || [ "$tries" -gt 100 ]; do
    tries=$((tries + 1))
    sleep 0.1
done
same 'a post after a restart' 201 "$(status_of -u editor:secret -H "$atom" -d "$(entry Again)" $https/feed)"
sleep 2.1
same 'the feed after a restart' 1 "$(fresh Again)"

echo "$passed passed, $failed failed"
[ "$failed" -eq 0 ]
