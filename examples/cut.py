#!/usr/bin/env python3
# Stands between clients and the broker, and cuts each connection after some bytes, as a bad network does.
# cut.py port broker's-port [most bytes of answers]
import random
import socket
import struct
import sys
import threading

port, behind = int(sys.argv[1]), int(sys.argv[2])
most_bytes = int(sys.argv[3]) if len(sys.argv) > 3 else 40000
chance = random.Random(1)


def cut(ends):
    for end in ends:
        try:
            end.setsockopt(socket.SOL_SOCKET, socket.SO_LINGER, struct.pack('ii', 1, 0))
            end.shutdown(socket.SHUT_RDWR)
        except OSError:
            pass
        end.close()


def forward(source, target, most):
    while most > 0:
        try:
            data = source.recv(min(4096, most))
            if not data:
                break
            target.sendall(data)
        except OSError:
            break
        most -= len(data)
    cut((source, target))


listener = socket.create_server(('127.0.0.1', port))
while True:
    client, _ = listener.accept()
    try:
        broker = socket.create_connection(('127.0.0.1', behind))
    except OSError:
        cut((client,))
        continue
    threading.Thread(target=forward, args=(client, broker, 1 << 40), daemon=True).start()
    threading.Thread(target=forward, args=(broker, client, chance.randrange(300, most_bytes)), daemon=True).start()
