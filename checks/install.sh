#!/bin/sh
# Installs the package in a Debian of its own by dpkg, boots it with systemd in a container, and does there what
# docs/OPERATING.md says: a feed, a mirror and a relay as units, which are killed, stopped, booted again, upgraded and
# removed. Before that it runs the worked example of the README as a user of that Debian.
# Usage: checks/install.sh [PROGRAM [BASE]]. PROGRAM is packed in place of the one of this repository. BASE is the folder of
# a fresh Debian, which is made there by debootstrap if there is none, and stays for later runs. Without BASE it is made and
# removed. It needs root, debootstrap and systemd-nspawn, and without a folder BASE the network. It ends with 0 if all
# agrees, with 1 if not, and with 2 if one of these is missing. It takes a minute, and some more to make BASE.
top=$(CDPATH='' cd -- "$(dirname -- "$0")/.." && pwd) || exit 1
tool=${1:-$top/out/feed_tool}
case $tool in
    /*) ;;
    */*) tool=$(CDPATH='' cd -- "$(dirname -- "$tool")" && pwd)/$(basename -- "$tool") || exit 1 ;;
esac
for needed in debootstrap systemd-nspawn dpkg-deb; do
    command -v "$needed" >/dev/null || { echo "install.sh: needs $needed" >&2; exit 2; }
done
[ "$(id -u)" -eq 0 ] || { echo 'install.sh: needs root' >&2; exit 2; }
[ -n "$1" ] || "$top/prove" || exit 1

# A container may not be in /tmp: its systemd mounts one of its own.
work=$(mktemp -d /var/tmp/install.XXXXXX) || exit 1
finish() {
    umount "$work/root/proc" 2>/dev/null
    rm -rf "$work"
}
trap finish EXIT
trap 'exit 1' HUP INT TERM
root=$work/root
passed=0
failed=0

# counts the case $1, which is right if the command after it succeeds; its output is shown if it fails
right() {
    name=$1
    shift
    if "$@" >"$work/said" 2>&1; then
        passed=$((passed + 1))
    else
        failed=$((failed + 1))
        printf 'FAILED: %s\n' "$name"
        head -n 20 "$work/said"
    fi
}

# A fresh Debian

base=${2:-$work/base}
if [ ! -e "$base" ]; then
    debootstrap --variant=minbase --include=systemd,systemd-sysv,dbus,curl,uuid-runtime bookworm "$base" >"$work/said" 2>&1 ||
        { tail -n 5 "$work/said"; echo 'install.sh: no Debian could be made' >&2; rm -rf "$base"; exit 2; }
fi
cp -a "$base" "$root" || exit 1

# The installation, without systemd

package=$("$top/deploy/package" "$tool") || exit 1
cp "$package" "$root/root/feed-tool.deb"
mount -t proc proc "$root/proc" || exit 1
right 'dpkg installs the package' chroot "$root" dpkg -i /root/feed-tool.deb
right 'the package is installed' chroot "$root" sh -c "dpkg-query -W -f '\${db:Status-Status}\n' feed-tool | grep -x installed"
right 'all libraries are there' chroot "$root" sh -c '! ldd /usr/bin/feed_tool | grep "not found"'
verified() { [ -z "$(chroot "$root" dpkg --verify feed-tool)" ]; }
right 'dpkg finds the files as they were packed' verified
right 'the user feed was made' chroot "$root" getent passwd feed
right 'the user can log in nowhere' sh -c "chroot '$root' getent passwd feed | grep nologin"
for unit in feed@news.service feed-mirror@news.service feed-mirror@news.timer feed-relay@news.service; do
    # Its pages can't be looked up, since the fresh Debian has no man.
    right "$unit is right" chroot "$root" systemd-analyze verify --man=no "$unit"
done

# The worked example of the README, with the installed program

# A port below those that the system gives to clients, so that no client of this machine has it by chance.
port=$(awk -v seed=$$ 'BEGIN { srand(seed); print 10000 + int(rand() * 20000) }')
awk '/^## / { inside = $0 == "## A worked example" } inside && /^```/ { code++; next } inside && code == 1' \
    "$top/README.md" | sed -e 's|\.\./feed_tool|feed_tool|g' -e "s|127\.0\.0\.1:8080|127.0.0.1:$port|g" >"$root/root/lines"
chroot "$root" useradd -m user
chroot "$root" cp /root/lines /home/user/lines
right 'the example ends with 0' timeout 60 chroot "$root" runuser -u user -- sh -c 'cd && sh -e ./lines >printed 2>errors'
for line in ready '201 1' '200 1' 'archive 1' 'complete 4 2' 'accepted 4 2' 'operations 60'; do
    right "the example prints '$line'" grep -Fqx -e "$line" "$root/home/user/printed"
done
right 'the demonstration' timeout 60 chroot "$root" runuser -u user -- sh -c 'cd && /usr/share/feed-tool/demo'
umount "$root/proc"

# The units, under systemd

# prints the block of lines in docs/OPERATING.md that has the text $1, for this server's address
block() {
    awk -v text="$1" '/^```/ { if (inside && index(lines, text)) printf "%s", lines; inside = !inside; lines = ""; next }
        inside { lines = lines $0 "\n" }' "$top/docs/OPERATING.md" | sed 's|http://feed.example/|http://127.0.0.1:8080/|g'
}
mkdir "$root/check"
block 'enable --now feed@news' >"$root/check/feed"
block 'enable --now feed-mirror@news.timer' >"$root/check/mirror"
block 'enable --now feed-relay@news' >"$root/check/relay"

# What both boots use. A case is a line `ok NAME` or `FAILED NAME` of the file `results`.
cat >"$root/check/common" <<'INSIDE'
exec >/check/said 2>&1
right() {
    name=$1
    shift
    if "$@" >/check/case 2>&1; then
        echo "ok $name" >>/check/results
    else
        { echo "FAILED $name"; head -n 20 /check/case; } >>/check/results
    fi
}
# tries a command for 20 seconds, until it succeeds
soon() {
    tries=0
    until "$@"; do
        tries=$((tries + 1))
        [ "$tries" -lt 100 ] || return 1
        sleep 0.2
    done
}
ask() { curl -q -s -S --max-time 20 "$@"; }
# whether the feed at the port $1 has the title $2
shows() { ask "http://127.0.0.1:$1/feed" | grep -F "<title>$2</title>"; }
post() {
    ask -f -H 'Content-Type: application/atom+xml;type=entry' --data-binary \
        "<entry xmlns=\"http://www.w3.org/2005/Atom\"><title>$1</title></entry>" "http://127.0.0.1:8080/feed"
}
is() { [ "$(systemctl show -P "$2" "$1")" = "$3" ] || { systemctl status --no-pager "$1"; return 1; }; }
main_process() { systemctl show -P MainPID "$1"; }
INSIDE

cat >"$root/check/first" <<'INSIDE'
. /check/common

# A feed
right 'the feed is enabled and started' sh -e /check/feed
right 'the feed is served' soon shows 8080 News
right 'an entry is posted' post 'The first entry'
right 'the server runs as the user feed' test "$(stat -c %U "/proc/$(main_process feed@news)")" = feed
right 'it can get no new privileges' grep -qx 'NoNewPrivs:.1' "/proc/$(main_process feed@news)/status"
right 'it has no capability' grep -qx 'CapEff:.0*' "/proc/$(main_process feed@news)/status"
right 'its memory is limited' grep -Eq '^Max data size +536870912 ' "/proc/$(main_process feed@news)/limits"
cannot_write() { ! nsenter -t "$(main_process feed@news)" -m touch /usr/written; }
right 'it sees the system read-only' cannot_write
right 'the units are confined' systemd-analyze security --threshold=30 --no-pager feed@news feed-relay@news

# An end by a signal, and a stop
killed() { kill -s KILL "$(main_process feed@news)"; }
right 'the server is killed' killed
right 'it is started again' soon shows 8080 'The first entry'
right 'it was started again once' is feed@news NRestarts 1
right 'an entry is posted after that' post 'The second entry'
right 'the server is stopped' systemctl stop feed@news
changed() { cd /var/lib/feed/news && echo 'add The third entry' | runuser -u feed -- feed_tool apply; }
right 'its folder can be used meanwhile' changed
right 'the server is started' systemctl start feed@news
right 'it has all three entries' soon shows 8080 'The third entry'
right 'nothing was lost' shows 8080 'The second entry'

# Another feed, at a port of its own, and one without a store
mkdir -p /etc/feed
echo 'LISTEN=127.0.0.1:8081' >/etc/feed/other
other() { sed -e 's|/news|/other|' -e 's|8080|8081|' -e 's|feed@news|feed@other|' -e 's|News|Other|' /check/feed | sh -e; }
right 'a second feed is started' other
right 'it has a port of its own' soon shows 8081 Other
install -d -o feed -g feed -m 750 /var/lib/feed/none
systemctl start feed@none
right 'a folder without a store fails' soon is feed@none Result exit-code
right 'its status is 6' is feed@none ExecMainStatus 6
right 'it is not started again' is feed@none NRestarts 0
right 'its log says why' grep -qx 'not init' /var/log/feed-none.log

# The log of events, as the section Watch says
echo 'FEED_LOG=stderr' >>/etc/feed/news
mkdir -p /etc/systemd/system/feed@news.service.d
printf '[Service]\nStandardError=journal\n' >/etc/systemd/system/feed@news.service.d/override.conf
systemctl daemon-reload
right 'the server is started with the log' systemctl restart feed@news
right 'it is served' soon shows 8080 News
logged() { journalctl -u feed@news | grep -E 'event=connection peer=127.0.0.1:[0-9]+ method=GET target=/feed status=200'; }
right 'the journal has a connection' soon logged

# A mirror
right 'the mirror is enabled' sh -e /check/mirror
right 'its timer waits' is feed-mirror@news.timer ActiveState active
right 'the mirror runs' systemctl start feed-mirror@news.service
right 'its report is complete' grep -qx 'complete 3 3' /var/log/feed-mirror-news.report
right 'its documents are its own' test "$(stat -c %U /var/lib/feed-mirror/news/mirror)" = feed

# A relay
right 'the relay is enabled and started' sh -e /check/relay
right 'the relay serves' soon shows 8090 'The third entry'
same_feed() { [ "$(ask http://127.0.0.1:8090/feed | cksum)" = "$(ask http://127.0.0.1:8080/feed | cksum)" ]; }
right 'it serves the same bytes' same_feed
post 'The fourth entry'
right 'the relay is started again' systemctl restart feed-relay@news
right 'it has fetched the new entry' soon shows 8090 'The fourth entry'

systemctl --no-block poweroff
INSIDE

cat >"$root/check/second" <<'INSIDE'
. /check/common

right 'the feed is served after a boot' soon shows 8080 'The fourth entry'
right 'the second feed is served after a boot' soon shows 8081 Other
right 'the relay serves after a boot' soon shows 8090 'The fourth entry'
right 'the timer waits after a boot' is feed-mirror@news.timer ActiveState active

right 'the package is installed again' dpkg -i /root/feed-tool.deb
right 'the units are read again' systemctl daemon-reload
right 'the server is restarted' systemctl restart feed@news
right 'it is served after the upgrade' soon shows 8080 'The fourth entry'
systemctl disable --now feed@news feed@other feed-relay@news feed-mirror@news.timer
right 'the server is stopped for good' is feed@news ActiveState inactive
right 'the package is removed' dpkg -r feed-tool
right 'the program is gone' test ! -e /usr/bin/feed_tool
right 'the feed stays' test -s /var/lib/feed/news/journal

systemctl --no-block poweroff
INSIDE

cat >"$root/etc/systemd/system/check.service" <<'INSIDE'
[Unit]
Description=the cases of checks/install.sh
[Service]
Type=idle
ExecStart=/bin/sh /check/now
[Install]
WantedBy=multi-user.target
INSIDE
mkdir -p "$root/etc/systemd/system/multi-user.target.wants"
ln -s ../check.service "$root/etc/systemd/system/multi-user.target.wants/check.service"

# boots the Debian, in which the lines of the file $1 are run at the end of the boot, and counts their cases
boot() {
    cp "$root/check/$1" "$root/check/now"
    rm -f "$root/check/results"
    timeout --foreground 300 systemd-nspawn --quiet --boot --directory="$root" --register=no --keep-unit --private-network \
        --machine="feed-$$" </dev/null >"$work/console" 2>&1
    status=$?
    cat "$root/check/results" 2>/dev/null >"$work/results"
    passed=$((passed + $(grep -c '^ok ' "$work/results")))
    failed=$((failed + $(grep -c '^FAILED ' "$work/results")))
    grep -v '^ok ' "$work/results"
    if [ "$status" -ne 0 ] || [ ! -s "$work/results" ]; then
        failed=$((failed + 1))
        echo "FAILED: the container of the $1 boot ended with $status"
        tail -n 20 "$work/console" "$root/check/said"
    fi
}
boot first
boot second

echo "$passed passed, $failed failed"
[ "$failed" -eq 0 ]
