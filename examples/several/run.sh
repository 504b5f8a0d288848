#!/usr/bin/env bash
# Starts two brokers behind nginx with the file brokers.conf, uses both by one address, looks at each as its administrator, and
# then moves a broker to a copy of its file, as a spare machine would have it. At the end one broker is alone behind the same file.
# Debian's packages: nginx openssl curl python3-websocket.
# examples/several/run.sh [program] [port]      It also uses the five ports after that one.
set -euo pipefail
here=$(cd "$(dirname "$0")" && pwd)
program=${1:-$here/../../crates/pulsar_broker/out/pulsar_broker}
port=${2:-18443}
room=$(mktemp -d)
chmod 755 "$room"
bills=
orders=
finish() {
    exec 2> /dev/null
    kill -9 $bills $orders
    kill "$(cat "$room/nginx.pid")"
    rm -rf "$room"
}
trap finish EXIT

start() {                # start NAME PORT
    : > "$room/said"
    "$program" "$room/$1.db" "127.0.0.1:$2" 2 letters=own backup="$room/copies" > "$room/said" &
    until grep -q listening "$room/said"; do sleep 0.05; done
}
mkdir "$room/copies"
start bills $((port + 1))
bills=$!
start orders $((port + 2))
orders=$!

openssl req -x509 -newkey rsa:2048 -nodes -days 2 -subj /CN=localhost -addext subjectAltName=DNS:localhost \
    -keyout "$room/brokers.key" -out "$room/brokers.crt" 2> "$room/openssl"
for user in bills orders admins metrics; do
    echo "$user:$(openssl passwd -apr1 "secret of $user")" > "$room/$user.passwd"
done
site() {                 # site ORDERS-PORT: brokers.conf with this room's files and ports
    sed "s|/etc/nginx/|$room/|; s|listen 443|listen 127.0.0.1:$port|; s|:8081|:$((port + 1))|; s|:8082|:$1|
        s|listen 844|listen 127.0.0.1:844|; s|8441|$((port + 4))|; s|8442|$((port + 5))|" "$here/brokers.conf" > "$room/site.conf"
}
site $((port + 2))
cat > "$room/nginx.conf" <<END
pid $room/nginx.pid;
events {}
http { access_log off; include $room/site.conf; }
END
nginx -e "$room/errors" -c "$room/nginx.conf"

ctl() {                  # ctl USER WORD..
    local user=$1
    shift
    timeout 60 /usr/bin/python3 "$here/../../tools/brokerctl" --ca "$room/brokers.crt" \
        --broker "wss://$user:secret%20of%20${owner:-$user}@localhost:${at:-$port}" "$@"
}
page() {                 # page USER PORT PATH: how a request for a page is answered; its body is in the room
    curl -s --cacert "$room/brokers.crt" -u "$1:secret of $1" -o "$room/body" -w '%{http_code}\n' "https://localhost:$2$3"
}
status() {               # status USER TARGET: how a request for a WebSocket is answered, or the code that it is closed with then
    /usr/bin/python3 - "$room/brokers.crt" "$port" "$1:secret of $1" "$2" <<'END'
import base64, os, socket, ssl, sys
file, port, user, target = sys.argv[1:]
with ssl.create_default_context(cafile=file).wrap_socket(socket.create_connection(('localhost', int(port))), server_hostname='localhost') as sock:
    sock.sendall((f'GET {target} HTTP/1.1\r\nHost: localhost:{port}\r\nAuthorization: Basic {base64.b64encode(user.encode()).decode()}\r\n'
                  'Upgrade: websocket\r\nConnection: Upgrade\r\nSec-WebSocket-Version: 13\r\n'
                  f'Sec-WebSocket-Key: {base64.b64encode(os.urandom(16)).decode()}\r\n{os.environ.get("MORE", "")}\r\n').encode())
    answer = sock.recv(4096)
    if answer.split()[1] == b'101':
        # a ping: it is answered, or the session was closed with a code
        sock.sendall(b'\x89\x80\0\0\0\0')
        frame = answer.split(b'\r\n\r\n', 1)[1]
        while len(frame) < 2 or len(frame) < 2 + frame[1]:
            frame += sock.recv(4096)
        print(int.from_bytes(frame[2:4], 'big') if frame[0] & 15 == 8 else 101)
    else:
        print(answer.split()[1].decode())
END
}
is() { diff <(printf '%s\n' "${@:2}") - > /dev/null || { echo "$1" >&2; exit 1; }; }
refused() { "${@:2}" > "$room/out" 2>&1 && { echo "it was not refused: $*" >&2; exit 1; } || grep "$1" "$room/out"; }

echo "== One address, two brokers"
ctl orders publish shop/orders/new first second > /dev/null
ctl bills publish shop/bills/open one > /dev/null
ctl orders consume shop/orders/new worker --count 1 | is "the first order does not come" first
ctl bills consume shop/bills/open clerk --count 1 | is "the bill does not come" one
ctl admins stats shop/orders/new worker

echo "== Who has no right is turned away"
owner=bills refused 'turned away with 401' ctl orders publish shop/orders/new third
refused 'turned away with 401' ctl bills publish shop/orders/new third
refused 'turned away with 404' ctl bills publish public/default/mine third
refused 'turned away with 401' ctl orders delete shop/orders/new --yes

echo "== A path that nginx and the broker might read in two ways is turned away"
path=/ws/v2/producer/persistent/shop/bills
for target in "$path/a%2fb%2fc%2fd%2fe%2ff/../../../../../admin/persistent/shop/orders/new" \
    "$path/"'..\..\..\..\admin\persistent\shop\bills\t' "$path/../../../../admin/persistent/shop/orders/new" \
    "$path/%2e%2e/orders/new" "$path/.%2E/orders/new" "$path/./new" "$path/.." "$path/x/.?y" "$path//new" "$path/a%2Fb" \
    "$path/a%5cb" "$path/a\\b" "$path/a#b"; do
    status bills "$target" | is "$target is not turned away" 400
done
for target in "$path/caf%C3%A9" "$path/a.b..c" "$path/..a?x=/../"; do
    status bills "$target" | is "$target is turned away" 101
done

echo "== Pages of other origins are turned away, and dead letters stay in their namespace"
MORE=$'Origin: https://evil.example\r\n' status bills "$path/new" | is "a foreign origin is let in" 403
MORE=$'Origin: https://localhost:'"$port"$'\r\n' status bills "$path/new" | is "its own origin is turned away" 101
letters='/ws/v2/consumer/persistent/shop/bills/open/clerk?subscriptionType=Shared&maxRedeliverCount=1&deadLetterTopic=shop'
status bills "$letters/orders/new" | is "letters may go to another namespace" 4002
status bills "$letters/bills/dead" | is "letters may not go to their own namespace" 101

echo "== An administrator has each broker whole, and others nothing of it but its health"
own_bills=$((port + 4))
own_orders=$((port + 5))
for path in / /overview /metrics /health; do
    [ $path = /metrics ] && user=metrics || user=admins
    page $user "$own_orders" $path | is "$user does not get $path" 200
    [ $path = /health ] && want=200 || want=401
    page orders "$own_orders" $path | is "orders may have $path" $want
    page admins "$port" $path | is "the address of all has $path" 404
done
page admins $own_orders / | is "the page does not come" 200
grep -q '<title>' "$room/body"
page metrics $own_orders /metrics | is "the numbers do not come" 200
grep -q '^pulsar_broker_topic_messages{topic="persistent://shop/orders/new"' "$room/body"
page metrics $own_bills /metrics | is "the numbers do not come" 200
grep -q 'topic="persistent://shop/bills/open"' "$room/body"
page metrics $own_orders /overview | is "the password of the numbers opens more" 401
at=$own_orders ctl admins topics | tee "$room/out"
grep -q '^shop/orders/new:' "$room/out"
if grep -q shop/bills "$room/out"; then echo "another broker's topics are shown" >&2; exit 1; fi
at=$own_bills ctl admins topics | grep '^shop/bills/open:' > /dev/null
mkfifo "$room/input"
ctl orders publish shop/orders/new < "$room/input" &
producer=$!
exec 3> "$room/input"                        # it waits for a line until this is closed
until at=$own_orders ctl admins sessions shop/orders/new | grep ' producer '; do sleep 0.1; done
exec 3>&-
wait $producer
at=$own_orders refused 'turned away with 401' ctl orders topics

echo "== Copies are made for clients on the broker's own machine alone"
at=$own_orders refused "refused: F20: copies are made for clients on the broker's own machine" ctl admins backup
timeout 60 /usr/bin/python3 "$here/../../tools/brokerctl" --broker "127.0.0.1:$((port + 2))" backup
ls "$room"/copies/orders.db.*-wal > /dev/null

echo "== The broker of the orders is killed, and goes on elsewhere with a copy of its files"
{ kill -9 $orders; wait $orders; } 2> /dev/null || true
mkdir "$room/spare"
mv "$room"/orders.db* "$room/spare/"
began=$(date +%s%3N)
start spare/orders $((port + 3))
orders=$!
site $((port + 3))
nginx -e "$room/errors" -c "$room/nginx.conf" -s reload
until ctl orders consume shop/orders/new worker --count 1 --wait 10 > "$room/out" 2> /dev/null; do sleep 0.1; done
is "the second order does not come" second < "$room/out"
echo "the next order came $(($(date +%s%3N) - began)) ms after the kill"
ctl bills publish shop/bills/open two > /dev/null
ctl bills consume shop/bills/open clerk --count 1 | is "the other broker does not go on" two

echo "== One broker alone behind the same file"
sed -i '/shop\/bills/,/}/d; /bills_broker/d' "$room/site.conf"
sed -i "/listen 127.0.0.1:$own_bills/d" "$room/site.conf"
nginx -e "$room/errors" -c "$room/nginx.conf" -s reload
while ctl bills publish shop/bills/open three > /dev/null 2>&1; do sleep 0.1; done
ctl orders publish shop/orders/new third > /dev/null
at=$own_orders ctl admins topics | grep '^shop/orders/new:' > /dev/null
page metrics $own_orders /metrics | is "the numbers do not come" 200
page none $own_orders /health | is "its health is not told" 200
