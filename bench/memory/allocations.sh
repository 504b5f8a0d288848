#!/bin/sh
# Counts what a publish that waits, a piped one, a delivery and an acknowledgement take of the allocator in the broker's process:
# mallocs, reallocs and bytes of each, by the crate whose code asks, ours or the kit's.
#   sh bench/memory/allocations.sh PROGRAM [COUNT [BYTES [sites]]]
# PROGRAM is the built broker, which has its symbols; COUNT operations are counted (2,000) after as many that are not, with payloads
# of BYTES bytes (1,024). With sites each function is told too, with its caller. It keeps its database in a folder of its own, in
# ROOM or where temporary files are, and needs gcc, nm and Python.
set -eu
here=$(dirname "$0")
room=$(mktemp -d -p "${ROOM:-/tmp}")
trap 'rm -rf "$room"' EXIT
cc -O2 -shared -fPIC -o "$room/count.so" "$here/count.c" -ldl
python3 "$here/allocations.py" "$room" "$@"
