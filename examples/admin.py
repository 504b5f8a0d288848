#!/usr/bin/env python3
# Looks at a topic's subscription, moves it, or drops it; or deletes the topic.
# admin.py address topic stats|earliest|latest|drop subscription
# admin.py address topic seek subscription message-id
# admin.py address topic time subscription milliseconds
# admin.py address topic skip subscription messages
# admin.py address topic delete
import json
import sys

from answers import MEANING, connect, receive, run

COMMANDS = {
    'stats': lambda: {'type': 'stats'},
    'earliest': lambda: {'type': 'seek', 'position': 'earliest'},
    'latest': lambda: {'type': 'seek', 'position': 'latest'},
    'seek': lambda: {'type': 'seek', 'position': sys.argv[5]},
    'time': lambda: {'type': 'seekTime', 'time': int(sys.argv[5])},
    'skip': lambda: {'type': 'skip', 'messages': int(sys.argv[5])},
    'drop': lambda: {'type': 'dropSubscription'},
    'delete': lambda: {'type': 'deleteTopic'},
}


def main():
    try:
        address, topic, command = sys.argv[1:4]
        text = COMMANDS[command]()
        if command != 'delete':
            text['subscription'] = sys.argv[4]
    except (ValueError, KeyError, IndexError):
        sys.exit('usage: admin.py address topic stats|earliest|latest|seek|time|skip|drop subscription [value]\n'
                 '       admin.py address topic delete')
    ws = connect(f'ws://{address}/ws/v2/admin/persistent/public/default/{topic}', timeout=60)
    ws.send(json.dumps(text))
    answer = receive(ws)
    ws.close()
    if answer['result'] != 'ok':
        refusal = f'F{answer["fault"]}'
        sys.exit(f'refused: {refusal}: {MEANING.get(refusal, "see docs/FORMATS.md")}')
    print(json.dumps(answer, sort_keys=True))


run(main)
