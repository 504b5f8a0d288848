#!/usr/bin/env bash
# Tries the wrong bodies in bench/edits, each of which the proofs must refuse, in a clone of the checkout as it stands
# committed. It begins with the proofs that `rt ci` kept on this machine, which it makes where there are none.
# Run from the repository, for all crates that have such bodies or for those that are named:
#   bash bench/edits.sh [CRATE..]
# It prints what `rt ci` prints, and fails where a body is not refused.
set -euo pipefail
cd "$(dirname "$0")/.."
[ $# -gt 0 ] || set -- $(ls bench/edits)
room=$(mktemp -d)
trap 'rm -rf "$room"' EXIT
git clone -q . "$room/clone"
cd "$room/clone"
# those that the gate tries itself stay out
rm -rf crates/*/must-fail
for crate; do
    cp -r "bench/edits/$crate" "crates/$crate/must-fail"
done
count=$(ls crates/*/must-fail/*.edit | wc -l)
rt ci "$@" 2>&1 | tee "$room/said" || true
refused=$(grep -c "^rt: must-fail .*: refused, as it must be" "$room/said" || true)
echo "$refused of $count wrong bodies were refused"
[ "$refused" = "$count" ]
