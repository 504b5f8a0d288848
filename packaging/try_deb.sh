#!/usr/bin/env bash
# Installs the package on a fresh Debian 12 and reads a first message there, as README has it, and says how long that takes; then
# purges it, over which the broker's file stays. It wants Debian's debootstrap, and runs as root: the fresh Debian is a folder, in
# which there is no systemd, so the broker is started by hand with the unit's words. try_package.sh looks at what is in it.
# packaging/try_deb.sh package.deb [folder]
set -euo pipefail
package=$(realpath "$1")
room=${2:-$(mktemp -d)}
here=$(cd "$(dirname "$0")" && pwd)
[ -d "$room/usr" ] || debootstrap --variant=minbase bookworm "$room" > "$room.log"
# The broker's own user comes in too.
chmod 755 "$room"
cp "$package" "$room/tmp/broker.deb"
inside=(chroot "$room" /usr/bin/env -i PATH=/usr/sbin:/usr/bin:/sbin:/bin DEBIAN_FRONTEND=noninteractive)
within() { "${inside[@]}" "$@"; }
mount --bind /proc "$room/proc"
ended() {
    [ -z "${broker:-}" ] || kill "$broker" || true
    umount "$room/proc"
}
trap ended EXIT

before=$(date +%s)
within apt-get update -qq
within apt-get install -qq -y /tmp/broker.deb > /dev/null
within pulsar_broker --version
within install -d -o pulsar-broker -m 750 /var/lib/pulsar-broker/main
# The unit's own line, with its words filled in.
words=$(sed -n 's/^ExecStart=//p' "$here/pulsar-broker@.service" | sed 's/%i/main/; s/${ADDRESS}/127.0.0.1:8080/; s/${WORKERS}/4/; s/${KEEP}/86400000ms/; s|${BACKUP}|/var/lib/pulsar-broker/main|; s/ $WORDS//')
"${inside[@]}" LD_PRELOAD=libjemalloc.so.2 setpriv --reuid pulsar-broker --regid pulsar-broker --clear-groups $words > "$room/tmp/said" 2>&1 &
broker=$!
until grep -q listening "$room/tmp/said"; do
    kill -0 "$broker" 2> /dev/null || { cat "$room/tmp/said" >&2; exit 1; }
    sleep 0.1
done
grep -q jemalloc "/proc/$broker/maps"
within brokerctl publish my-topic hello
got=$(within brokerctl consume my-topic my-sub --count 1)
[ "$got" = hello ]
echo "the first message after $(($(date +%s) - before)) s: $got"
within brokerctl backup

kill "$broker"
wait "$broker" || true
broker=
within apt-get purge -qq -y pulsar-broker > "$room/tmp/purged"
grep "files in /var/lib/pulsar-broker stay" "$room/tmp/purged"
[ -s "$room/var/lib/pulsar-broker/main/broker.db" ]
[ ! -e "$room/etc/pulsar-broker/NAME.conf.sample" ]
