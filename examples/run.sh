#!/usr/bin/env bash
# Starts the broker, runs the examples against it, kills it in the middle, starts it again, and shows that nothing that
# was answered ok is lost, and that workers go on; then runs the commands, texts and programs of the pages. Debian's
# packages: python3-websocket node-ws sqlite3.
# examples/run.sh [program] [port] [messages]      It also uses the port after that one.
set -euo pipefail
here=$(cd "$(dirname "$0")" && pwd)
program=${1:-$here/../crates/pulsar_broker/out/pulsar_broker}
port=${2:-18080}
messages=${3:-5000}      # without doubles; fewer where the program was built to be slow
address=127.0.0.1:$port
room=$(mktemp -d)
python=/usr/bin/python3
export NODE_PATH=${NODE_PATH:-/usr/share/nodejs}
broker=
cutter=
workers=

stop() {
    [ -z "$broker" ] || kill -9 "$broker" 2>/dev/null || true
    [ -z "$broker" ] || wait "$broker" 2>/dev/null || true
    broker=
}
finish() {
    stop
    [ -z "$cutter$workers" ] || kill $cutter $workers 2>/dev/null || true
    rm -rf "$room"
}
trap finish EXIT

start() {                # start [words]
    : > "$room/said"
    "$program" "$room/broker.db" "$address" 4 "$@" > "$room/said" &
    broker=$!
    for _ in $(seq 6000); do
        grep -q listening "$room/said" && return
        sleep 0.05
    done
    echo "the broker did not start" >&2
    exit 1
}

settled() {              # settled TOPIC COUNT: waits until the workers have acknowledged so many messages, and so all
    for _ in $(seq 300); do
        timeout 60 "$python" "$here/admin.py" "$address" "$1" stats workers > "$room/stats" 2> /dev/null || true
        ! grep "\"acknowledged\": $2,.*\"live\": 0" "$room/stats" || return 0
        sleep 0.2
    done
    echo "not all was acknowledged: $(cat "$room/stats")" >&2
    exit 1
}

start
echo "== Python: a consumer waits, a producer publishes"
timeout 60 "$python" "$here/consumer.py" "$address" my-topic my-sub 10 > "$room/consumer" &
consumer=$!
"$python" "$here/producer.py" "$address" my-topic 10
wait "$consumer"
cat "$room/consumer"

echo "== Node: the same topic, another subscription, which begins at the earliest message"
timeout 60 node "$here/consumer.js" "$address" my-topic other-sub 15 > "$room/consumer" &
consumer=$!
timeout 60 node "$here/producer.js" "$address" my-topic 5
wait "$consumer"
cat "$room/consumer"

echo "== Key_Shared"
timeout 60 "$python" "$here/key_shared.py" "$address"

echo "== Key_Shared, with ranges that the consumers ask for"
timeout 60 "$python" "$here/sticky.py" "$address"

echo "== Dead letters"
timeout 60 "$python" "$here/dead_letters.py" "$address"

echo "== An administrator"
for command in stats earliest "skip 2" stats drop; do
    set -- $command
    timeout 60 "$python" "$here/admin.py" "$address" my-topic "$1" other-sub ${2:-}
done

echo "== brokerctl"
ctl() { timeout 60 "$python" "$here/../tools/brokerctl" --broker "$address" "$@"; }
ctl publish errands one two three --key k
ctl consume errands worker --count 2 -v
ctl --json stats errands worker | tee "$room/stats"
grep -q '"acknowledged": 2.*"live": 1' "$room/stats"
ctl topics | tee "$room/topics"
grep -q '  worker  *Exclusive  *1 ' "$room/topics"
ctl seek errands worker earliest
ctl skip errands worker 1
ctl consume errands worker --wait 1 | diff - <(printf 'two\nthree\n')
ctl dead list errands worker 2> "$room/dead" && exit 1
grep -q 'errands-worker-DLQ: no such topic' "$room/dead"
seq 100 | ctl publish errands --name counter > /dev/null
seq 100 | ctl publish errands --name counter | grep -c duplicate | grep -qx 100
ctl drop errands worker --yes
ctl delete errands --yes

echo "== Each is refused with one line"
refused() {
    local want=$1
    shift
    timeout 60 "$@" > /dev/null 2> "$room/line" && { echo "it was not refused: $*" >&2; exit 1; }
    [ "$(wc -l < "$room/line")" = 1 ] && grep -q "$want" "$room/line" || { cat "$room/line" >&2; exit 1; }
    cat "$room/line"
}
timeout 60 "$python" "$here/consumer.py" "$address" my-topic taken > "$room/consumer" &
consumer=$!
until grep -q Received "$room/consumer"; do sleep 0.05; done
refused 'answered with 409 F6' "$python" "$here/consumer.py" "$address" my-topic taken
refused 'answered with 409 F6' node "$here/consumer.js" "$address" my-topic taken
refused 'F12' "$python" "$here/admin.py" "$address" my-topic drop taken
kill "$consumer"
wait "$consumer" || true
refused 'answered with 400 F20' "$python" "$here/producer.py" "$address" a%00b
refused 'answered with 400 F20' node "$here/producer.js" "$address" a%00b
long=$(printf 'n%.0s' $(seq 256))
refused 'answered with 400 F20' "$python" "$here/once.py" "$address" "$long"
refused 'answered with 400 F20' node "$here/once.js" "$address" "$long"
refused 'answered with 400 F20' "$python" "$here/worker.py" "$address" "$long"
refused 'answered with 400 F20' node "$here/worker.js" "$address" "$long"
refused 'answered with 400 F20' "$python" "$here/key_shared.py" "$address" a%00b
refused 'answered with 400 F20' "$python" "$here/sticky.py" "$address" a%00b
refused 'answered with 400 F20' "$python" "$here/dead_letters.py" "$address" a%00b
refused 'answered with 404 F11' "$python" "$here/admin.py" "$address" not-there stats my-sub
timeout 60 "$python" "$here/admin.py" "$address" my-topic delete
refused 'answered with 404 F11' "$python" "$here/admin.py" "$address" my-topic stats my-sub

echo "== Work that fails is given back"
timeout 60 "$python" "$here/producer.py" "$address" failing 2 > /dev/null
PYTHONPATH=$here timeout 60 "$python" - "$address" 2> /dev/null <<'END'
import sys
from worker import Worker
tried = []
def work(payload, message):
    tried.append((payload[-1:], message['redeliveryCount']))
    if len(tried) == 1:
        raise ValueError('not now')
    if len(tried) == 3:
        worker.stop()
worker = Worker(sys.argv[1], 'failing', 'py', work, negativeAckRedeliveryDelay=100)
worker.run()
print('Python:', *tried)
sys.exit(tried != [(b'1', 0), (b'2', 0), (b'1', 1)])
END
timeout 60 node - "$here" "$address" 2> /dev/null <<'END'
const [here, address] = process.argv.slice(2);
const { Worker } = require(`${here}/worker.js`);
const tried = [];
const worker = new Worker(address, 'failing', 'js', async (payload, message) => {
  tried.push(`${payload.subarray(-1)} ${message.redeliveryCount}`);
  if (tried.length === 1) throw new Error('not now');
  if (tried.length === 3) worker.stop();
}, { negativeAckRedeliveryDelay: 100 });
worker.run().then(() => {
  console.log('Node:', tried.join(', '));
  process.exit(tried.join() === '1 0,2 0,1 1' ? 0 : 1);
});
END

echo "== Without doubles, and worked on: connections are cut all the time, and the broker is killed"
"$python" "$here/cut.py" $((port + 1)) "$port" $((500 + 8 * messages)) &
cutter=$!
for language in py js; do
    if [ $language = py ]; then runs=$python; else runs=node; fi
    timeout 300 "$runs" "$here/once.$language" 127.0.0.1:$((port + 1)) "numbers-$language" counter "$messages" > "$room/once" &
    producer=$!
    "$runs" "$here/worker.$language" 127.0.0.1:$((port + 1)) "numbers-$language" workers 0 > "$room/worked" 2> /dev/null &
    workers=$!
    for _ in 1 2; do
        sleep 0.7
        stop
        start
    done
    wait "$producer"
    cat "$room/once"
    ! grep -q ' 0 of those' "$room/once" || { echo "no message was sent again: nothing was shown" >&2; exit 1; }
    timeout 60 "$python" "$here/consumer.py" "$address" "numbers-$language" all "$messages" |
        sed -n 's/^Received \([0-9]*\) as.*/\1/p' > "$room/numbers"
    seq 0 $((messages - 1)) | cmp - "$room/numbers"
    timeout 60 "$python" "$here/admin.py" "$address" "numbers-$language" stats all > "$room/stats"
    grep -q "\"acknowledged\": $messages.*\"live\": 0" "$room/stats"
    echo "the log has each number from 0 to $((messages - 1)) once, in order, and no other message"
    settled "numbers-$language" "$messages"
    kill "$workers"
    wait "$workers" || true
    workers=
    sed -n 's/^Done \([0-9]*\) as.*/\1/p' "$room/worked" | sort -n > "$room/numbers"
    uniq "$room/numbers" | cmp - <(seq 0 $((messages - 1)))
    echo "the worker did each at least once, $(uniq -d "$room/numbers" | wc -l) again, and acknowledged all"
done
kill "$cutter"
cutter=

echo "== Only connections are cut: each is worked on once"
"$python" "$here/cut.py" $((port + 1)) "$port" 2000 &
cutter=$!
until timeout 1 bash -c "< /dev/tcp/127.0.0.1/$((port + 1))" 2> /dev/null; do sleep 0.05; done
for language in py js; do
    if [ $language = py ]; then runs=$python; else runs=node; fi
    timeout 60 "$runs" "$here/once.$language" "$address" "cut-$language" counter 100 > /dev/null
    timeout 120 "$runs" "$here/worker.$language" 127.0.0.1:$((port + 1)) "cut-$language" workers 0 100 2> /dev/null |
        sed -n 's/^Done \([0-9]*\) as.*/\1/p' | sort -n > "$room/numbers"
    seq 0 99 | cmp - "$room/numbers"
    settled "cut-$language" 100
done
echo "100 messages each were done and acknowledged"
kill "$cutter"
cutter=

echo "== Work takes longer than the broker waits for a silent client"
stop
start silence=1000ms,1000ms 2> "$room/log"
timeout 60 "$python" "$here/once.py" "$address" long-py counter 2
timeout 60 node "$here/once.js" "$address" long-js counter 2
timeout 60 "$python" "$here/worker.py" "$address" long-py workers 8 > "$room/worked-py" 2> /dev/null &
workers=$!
timeout 60 node "$here/worker.js" "$address" long-js workers 8 > "$room/worked-js" 2> /dev/null &
workers="$workers $!"
"$python" - "$address" <<'END'
# one that is silent for as long is gone
import sys, time, websocket
ws = websocket.create_connection(f'ws://{sys.argv[1]}/ws/v2/consumer/persistent/public/default/long-py/silent', timeout=2)
time.sleep(7)
try:
    while ws.recv_data(control_frame=True)[0] != websocket.ABNF.OPCODE_CLOSE:
        pass
except websocket.WebSocketTimeoutException:
    sys.exit('the silent client was not ended')
except (OSError, websocket.WebSocketException):
    pass
END
for language in py js; do
    until grep -q '^Begun 1' "$room/worked-$language"; do sleep 0.05; done
done
grep 'ended by silence' "$room/log" > "$room/silent"
[ "$(wc -l < "$room/silent")" = 1 ] || { echo "a worker was ended too: $(cat "$room/silent")" >&2; exit 1; }
sleep 1
stop                     # each has its second message in hand
start silence=1000ms,1000ms
for language in py js; do
    settled "long-$language" 2
done
sleep 0.5                # one that began a message again would have done so by now
kill $workers
wait $workers || true
workers=
for language in py js; do
    sed 's/ as .*//' "$room/worked-$language" | diff - <(printf '%s\n' 'Begun 0' 'Done 0' 'Begun 1' 'Done 1')
done
echo "each of them did both messages once, the second one over a kill of the broker"

echo "== The broker is killed while a producer publishes"
"$python" "$here/producer.py" "$address" killed 100000 > "$room/published" 2> /dev/null &
producer=$!
sleep 1
stop
wait "$producer" || true
sed -i '/^Published .* as .*=$/!d' "$room/published"
count=$(wc -l < "$room/published")
echo "$count messages were answered ok, the last of them: $(tail -n 1 "$room/published")"
start
timeout 60 "$python" "$here/consumer.py" "$address" killed late "$count" | sed -n 's/^Received/Published/p' > "$room/received"
cmp "$room/published" "$room/received"
echo "after the start all $count are found again, in their order, each under its id"
stop
echo "== The pages"
"$python" "$here/pages.py" "$program" "$port"
echo "sqlite3 says of the database: $(sqlite3 "$room/broker.db" 'PRAGMA integrity_check')"
