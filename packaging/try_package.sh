#!/usr/bin/env bash
# Makes the package twice, of one commit and of a next one, and looks at what is in it: its version rises, lintian finds no error,
# links of the documents lead somewhere, manual pages and completion have what the programs say of themselves, and the sample has
# the unit's settings. It installs nothing, and takes seconds. Debian's packages: lintian man-db groff-base git.
# packaging/try_package.sh [program]
set -euo pipefail
here=$(cd "$(dirname "$0")" && pwd)
program=$(realpath "${1:-$here/../crates/pulsar_broker/out/pulsar_broker}")
room=$(mktemp -d)
trap 'rm -rf "$room"' EXIT
wrong() { echo "$*" >&2; exit 1; }

# A copy of its own, so that it may have a next commit.
git clone -q "$here/.." "$room/clone"
(cd "$here/.." && git ls-files -z README.md docs bench/NOTES.md examples packaging tools | tar -c --null -T -) | tar -x -C "$room/clone"
build() { "$room/clone/packaging/build_deb.sh" "$program" "$room"; }
commit() { GIT_COMMITTER_DATE="$1" git -C "$room/clone" -c user.name=a -c user.email=a@b commit -q --allow-empty -m "$1"; }
version() { dpkg-deb -f "$1" Version; }

echo "== Versions rise"
commit '2020-02-01 08:00:00 +0000'
first=$(build)
again=$(sha256sum < "$first")
[ "$(sha256sum < "$(build)")" = "$again" ] || wrong "the same commit makes two packages"
# An hour later, though another clock of the same day says less.
commit '2020-02-01 04:00:00 -0500'
package=$(build)
dpkg --compare-versions "$(version "$package")" gt "$(version "$first")" || wrong "$(version "$package") is not above $(version "$first")"
dpkg --compare-versions "$(version "$first")" gt 0.20991231.ffffffff || wrong "$(version "$first") is not above those from before"
echo "$(version "$first") < $(version "$package")"

echo "== lintian"
lintian --fail-on error "$package" 2> /dev/null || wrong "lintian finds errors"

root=$room/root
dpkg-deb -x "$package" "$root"
doc=$root/usr/share/doc/pulsar-broker
echo "== Links of the documents"
links=0
while IFS=: read -r page link; do
    links=$((links + 1))
    [ -e "$(dirname "$page")/$link" ] || wrong "${page#"$doc/"}: $link is not there"
done < <(find "$doc" -name '*.md' -exec grep -oHE '\]\([^)#:]+' {} + | sed 's/:\](/:/')
[ "$links" -gt 20 ] || wrong "there are only $links links"
for path in examples/several/brokers.conf examples/producer.py tools/brokerctl; do
    [ -e "$doc/$path" ] || wrong "$path is not there"
done
echo "$links links lead somewhere"

echo "== Manual pages"
manual() { MANWIDTH=200 man -l "$root/usr/share/man/man1/$1.1.gz" 2> "$room/warnings" | col -b | tr -s ' \t' ' '; }
for page in pulsar_broker brokerctl; do
    LC_ALL=C.UTF-8 man --warnings -l -Tutf8 -Z "$root/usr/share/man/man1/$page.1.gz" 2>&1 > /dev/null | grep . && wrong "$page.1 has warnings"
    manual $page > "$room/$page"
done
# Each word that the program's help lists, and each command of brokerctl, in the places where they list them.
words=$("$program" --help | sed -nE 's/^  ([a-z-]+)(=\S*)? .*/\1/p' | sort -u)
for word in $words; do grep -q "^ $word" "$room/pulsar_broker" || wrong "pulsar_broker.1 has no $word"; done
commands=$(COLUMNS=200 python3 "$here/../tools/brokerctl" --help | sed -nE 's/^    ([a-z]+)  +.*/\1/p')
for command in $commands; do grep -qE "^ $command( |$)" "$room/brokerctl" || wrong "brokerctl.1 has no $command"; done
grep -q '^ offline trim$' "$room/brokerctl" || wrong "brokerctl.1 has no offline trim"
echo "$(wc -w <<< "$words") words and $(wc -w <<< "$commands") commands are there"

echo "== Completion"
completed() {            # completed WORD..: what is offered for the last one
    bash -c 'source "$0"; compopt() { :; }; COMP_WORDS=("$@"); COMP_CWORD=$(($# - 1)); _brokerctl; printf "%s\n" "${COMPREPLY[@]}"' \
        "$root/usr/share/bash-completion/completions/brokerctl" "$@" | sort
}
offers() {               # offers 'LINES' WORD..
    diff <(tr ' ' '\n' <<< "$1" | sort) <(completed "${@:2}") > /dev/null || wrong "for ${*:2} is offered: $(completed "${@:2}" | xargs)"
}
[ "$(completed brokerctl '' | grep -v ^-)" = "$(sort <<< "$commands")" ] || wrong "not the commands are offered"
offers "publish" brokerctl pub
offers "trim" brokerctl --json offline tr
offers "--older" brokerctl offline trim broker.db --ol
offers "Key_Shared" brokerctl consume orders worker --type Key
offers "" brokerctl publish orders --key ''
offers "" brokerctl publish offline tr
touch "$room/some file"
offers_file=$(cd "$room" && completed brokerctl offline check som)
[ "$offers_file" = "some file" ] || wrong "no file is offered: $offers_file"
echo "commands, options, their values and files are offered"

echo "== The sample has the unit's settings"
unit=$root/lib/systemd/system/pulsar-broker@.service
diff <(sed -n 's/^Environment=//p' "$unit" | grep -v ^LD_PRELOAD | sed -E 's/ ([A-Z]+=)/\n\1/g; s/%i/NAME/' | sort) \
    <(sed -n 's/^#\([A-Z]*=\)/\1/p' "$root/etc/pulsar-broker/NAME.conf.sample" | sort) || wrong "the sample has others"
