#!/usr/bin/env bash
# Tries the program that was proved over real sockets, from outside: targets and texts with what they are answered, each refusal
# with its code, or its status and its words, requests that ask for no WebSocket, who is let in, who floods or is silent, what
# one address and one topic may have, what comes again and when, also where the clock is set, what is seen of the broker and
# what is asked of it, what goes and what stays, two topics at once, whoever comes and goes; then kills, a disk that takes no
# more, files that are taken away, and those of a new database. It wants gcc and Python's own library alone.
set -euo pipefail
cd "$(dirname "$0")/.."
program=$PWD/crates/pulsar_broker/out/pulsar_broker
ROOM=$(mktemp -d)
export ROOM
trap 'rm -rf "$ROOM"' EXIT

# A port that is free now.
port() {
    python3 -c 'import socket; it = socket.socket(); it.bind(("127.0.0.1", 0)); print(it.getsockname()[1])'
}

python3 bench/server/targets.py "$program" "$(port)"
python3 bench/server/texts.py "$program" "$(port)"
python3 bench/server/mutants.py "$program" 2000 "$(port)"
python3 bench/server/refusals.py "$program" "$(port)"
python3 bench/server/words.py "$program" "$(port)"
python3 bench/server/plain.py "$program" "$(port)"
python3 bench/server/doors.py "$program" "$(port)"
python3 bench/server/floods.py "$program" "$(port)"
python3 bench/server/addresses.py "$program" "$(port)"
python3 bench/server/bounds.py "$program" "$(port)"
python3 bench/server/returns.py "$program" 5 "$(port)"
python3 bench/server/clock.py "$program" "$(port)"
python3 bench/server/seen.py "$program" "$(port)"
python3 bench/server/resting.py "$program" 300 "$(port)"
python3 bench/server/administer.py "$program" "$(port)"
python3 bench/server/keeps.py "$program" "$(port)"
python3 bench/server/passing.py "$program" "$(port)"
python3 bench/server/expires.py "$program" "$(port)"
python3 bench/server/at_once.py "$program" "$(port)"
python3 bench/server/opens.py "$program" 60 "$(port)"
python3 bench/server/topics.py "$program" 300 5 "$(port)"
python3 bench/server/backup.py "$program" 5 "$(port)"
python3 bench/server/version_1.py "$program" "$(port)"
python3 bench/server/offline.py "$program" "$(port)"
python3 bench/server/restarts.py "$program" 15 "$(port)"
python3 bench/server/kills.py "$program" 5 "$(port)"
python3 bench/server/counts.py "$program" 3 "$(port)" 10
python3 bench/server/deaths.py "$program" 5 "$(port)"
python3 bench/server/again.py "$program" 6 "$(port)"
python3 bench/server/full.py "$program" 6 "$(port)"
python3 bench/server/gone.py "$program" "$(port)"
python3 bench/server/made.py "$program" "$(port)"
