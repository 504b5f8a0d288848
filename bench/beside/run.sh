#!/usr/bin/env bash
# Measures the broker beside Redis Streams and RabbitMQ, three times, and prints a table of Markdown with the medians. The client is
# one in Go; rows 1 to 4 of Redis and the broker have a lean one in C too.
# bench/beside/run.sh PROGRAM [flags]
# PROGRAM is the built broker, crates/pulsar_broker/out/pulsar_broker. Each system has a folder of its own under ROOM (or
# here), so let ROOM be on the disk that is meant. The flags are those that -h lists; a run of some seconds has
#   -turns 1 -count 100 -backlog 2000 -paced 100 -each 200 -stored 5000 -crowd 40 -idle 2s
# Without RabbitMQ: -systems Redis,broker,Redis-lean,broker-lean
# Debian's packages: gcc libc6-dev golang-go golang-github-gorilla-websocket-dev golang-github-gomodule-redigo-dev
# golang-github-rabbitmq-amqp091-go-dev redis-server rabbitmq-server.
set -euo pipefail
here=$(cd "$(dirname "$0")" && pwd)
if [ $# -lt 1 ]; then
    echo "usage: run.sh PROGRAM [flags]" >&2
    exit 2
fi
program=$(realpath "$1")
shift
(cd "$here" && GO111MODULE=off GOPATH=/usr/share/gocode go build -o out/beside .)
gcc -O2 -pthread -o "$here/out/lean" "$here"/lean/*.c
ulimit -n 8192 || true # enough for a thousand consumers, and not so many that Erlang makes room for millions
exec "$here/out/beside" -program "$program" -lean "$here/out/lean" -room "${ROOM:-.}" "$@"
