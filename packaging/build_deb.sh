#!/usr/bin/env bash
# Makes a Debian package of the program that was proved, with its unit, brokerctl, their manual pages, the documents and the
# examples, by Debian's own tools alone. It starts the program, for what it says of itself. Whoever gives the package to others sets
# DEBFULLNAME and DEBEMAIL. The same commit and program make the same package.
# packaging/build_deb.sh [program] [folder]      The package is written into the folder, and its name is printed.
set -euo pipefail
umask 022
here=$(cd "$(dirname "$0")" && pwd)
program=$(realpath "${1:-$here/../crates/pulsar_broker/out/pulsar_broker}")
folder=${2:-.}
room=$(mktemp -d)
trap 'rm -rf "$room"' EXIT

# What the program calls itself, the commit's moment, by which a later commit has a higher version, and the commit. The 1 sets it
# above packages from before, whose version was 0.DAY.COMMIT.
said=$("$program" --version)
moment=$(TZ=UTC git -C "$here" log -1 --format=%cd --date=format-local:%Y%m%d%H%M%S)
version=1:${said##* }+git$moment.$(git -C "$here" log -1 --format=%h)
SOURCE_DATE_EPOCH=$(git -C "$here" log -1 --format=%ct)
export SOURCE_DATE_EPOCH
architecture=$(dpkg --print-architecture)
authors="The topic broker's authors"
maintainer="${DEBFULLNAME:-$authors} <${DEBEMAIL:-authors@topic-broker.invalid}>"

root=$room/root
doc=$root/usr/share/doc/pulsar-broker
install -D -m 755 "$program" "$root/usr/bin/pulsar_broker"
strip "$root/usr/bin/pulsar_broker" 2>/dev/null || true      # a debugger's names, two thirds of its size
install -D -m 755 "$here/../tools/brokerctl" "$root/usr/bin/brokerctl"
sed -i '1s|.*|#!/usr/bin/python3|' "$root/usr/bin/brokerctl"
install -D -m 644 "$here/pulsar-broker@.service" "$root/lib/systemd/system/pulsar-broker@.service"
install -D -m 644 "$here/NAME.conf.sample" "$root/etc/pulsar-broker/NAME.conf.sample"

"$here/manual.py" "$program" "$here/../tools/brokerctl" "$room" "$(date -u -d "@$SOURCE_DATE_EPOCH" +%Y-%m-%d)"
for page in pulsar_broker brokerctl; do
    install -d "$root/usr/share/man/man1"
    gzip -9n < "$room/$page.1" > "$root/usr/share/man/man1/$page.1.gz"
done
install -D -m 644 "$room/brokerctl.bash" "$root/usr/share/bash-completion/completions/brokerctl"

# The documents lie as they do in the sources, so that their links and the paths that they name lead somewhere.
mkdir -p "$doc/tools"
(cd "$here/.." && git ls-files -z README.md docs bench/NOTES.md examples tools/alerts.yml tools/grafana.json | tar -c --null -T -) | tar -x --no-same-permissions -C "$doc"
ln -s ../../../../bin/brokerctl "$doc/tools/brokerctl"
install -m 644 "$here/copyright" "$doc/copyright"
sed "s|@version@|$version|; s|@maintainer@|$maintainer|; s|@date@|$(date -u -R -d "@$SOURCE_DATE_EPOCH")|" "$here/changelog" |
    gzip -9n > "$doc/changelog.gz"

mkdir "$root/DEBIAN"
for script in postinst prerm postrm; do install -m 755 "$here/$script" "$root/DEBIAN/$script"; done
echo /etc/pulsar-broker/NAME.conf.sample > "$root/DEBIAN/conffiles"
cat > "$root/DEBIAN/control" <<END
Package: pulsar-broker
Version: $version
Architecture: $architecture
Maintainer: $maintainer
Section: net
Priority: optional
Depends: libc6, libjemalloc2, adduser, python3
Recommends: python3-websocket
Installed-Size: $(du -sk "$root/usr" | cut -f1)
Description: topic broker with Apache Pulsar's subscription types
 It is spoken to by JSON over WebSockets, and has Exclusive, Failover, Shared
 and Key_Shared subscriptions to persistent topics, on one machine, in one
 SQLite file. Each function of the program is proved against its contract
 before it is built.
END
package=$folder/pulsar-broker_${version#*:}_$architecture.deb
dpkg-deb --root-owner-group --build "$root" "$package" > /dev/null
echo "$package"
