#!/bin/sh
# Runs a test with each allocation refused in turn, and counts the runs that end badly in another way than by running out
# of memory: an answer that differs after an event was asked once more, rows that are others than before, or a crash.
# Run from the repository, after the crate's tests are built (`cd crates/NAME && rt test`):
#   sh bench/memory/refuse.sh [step [crate test]]
# The tests that are meant for it are topic_tests's tests::both_topics::memory::a_refusal_changes_nothing, which is run
# if none is named; session_tests's tests::sessions::memory::a_producers_session_for_want_of_memory,
# a_consumers_session_for_want_of_memory and an_administrators_session_for_want_of_memory; store_tests's
# tests::memory::a_round_for_want_of_memory; and server_tests's tests::directory::memory::nobody_sleeps_for_want_of_memory,
# which the gate runs.
set -eu
here=$(dirname "$0")
step=${1:-1}
crate=${2:-topic_tests}
asked=${3:-tests::both_topics::memory::a_refusal_changes_nothing}
tests=$here/../../crates/$crate/out/${crate}_tests
shim=$(mktemp -d)/refuse.so
cc -O2 -shared -fPIC -o "$shim" "$here/refuse.c" -ldl
count=$(LD_PRELOAD=$shim REFUSE_COUNT=1 "$tests" "$asked" 2>&1 >/dev/null | tail -1)
echo "$count allocations"
[ "${count:-0}" -gt 0 ]
bad=0 number=1
while [ "$number" -le "$count" ]; do
  text=$(LD_PRELOAD=$shim REFUSE=$number "$tests" "$asked" 2>&1) || case $text in
    *"out of memory"*|*"no memory"*|*AllocError*) ;;
    *) bad=$((bad + 1)); echo "at $number: $text" ;;
  esac
  number=$((number + step))
done
echo "$bad runs ended badly"
[ "$bad" = 0 ]
