# A file with a topic of many messages, written by the stock sqlite3 as docs/FORMATS.md says its rows.
import sqlite3

NAME, LEDGER = 'persistent://public/default/big', 50_000
ADD = ("INSERT INTO entry (topic, idx, ledger, entry, producer, sequence, time, has_key, key, properties, payload) "
       "VALUES (?1, ?2, ?3, ?4, 'p', ?2, 1000, 0, '', '{}', ?5)")


def fill(database, size, payload=100):
    """A topic of so many messages of so many bytes, with one subscription."""
    with sqlite3.connect(database) as rows:
        rows.execute('INSERT INTO topic (name, ledger_size, ledger, ordinal) VALUES (?1, ?2, ?3, 0)',
                     (NAME, LEDGER, (size - 1) // LEDGER))
        rows.execute("INSERT INTO sub (topic, name, kind) VALUES (?1, 's', 0)", (NAME,))
        rows.executemany(ADD, ((NAME, at, at // LEDGER, at % LEDGER, b'\7' * payload) for at in range(size)))
    rows.close()
