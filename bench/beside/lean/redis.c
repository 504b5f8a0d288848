// Redis: the topic is a stream, its subscription the stream's group, and a message's payload the one field of its entry.
#include "lean.h"

#include <stdio.h>
#include <stdlib.h>
#include <string.h>

static char ready[MOST_PAYLOAD + 128], reading[256];
static size_t ready_length, number_at;

static void make_ready(const unsigned char *payload, size_t length) {
    int head = snprintf(ready, sizeof ready, "*5\r\n$4\r\nXADD\r\n$1\r\nt\r\n$1\r\n*\r\n$7\r\npayload\r\n$%zu\r\n", length);
    number_at = head;
    memcpy(ready + head, payload, length);
    memcpy(ready + head + length, "\r\n", 2);
    ready_length = head + length + 2;
}

static void put_publish(struct link *link, uint64_t number) {
    store_number((unsigned char *)ready + number_at, number);
    put(link, ready, ready_length);
}

// The number behind a reply's first byte, which is to be this one.
static size_t take_count(struct link *link, char kind) {
    size_t length;
    char *line = find(link, "\r\n", &length);
    if (*line != kind) fail("Redis answered %.*s", (int)length, line);
    size_t count = strtoul(line + 1, NULL, 10);
    take(link, length + 2);
    return count;
}

static void expect(struct link *link, size_t count) {
    if (take_count(link, '*') != count) fail("a list has not %zu parts", count);
}

// A string, which is there until more is needed, and how long it is.
static const char *take_string(struct link *link, size_t *length) {
    *length = take_count(link, '$');
    char *string = need(link, *length + 2);
    take(link, *length + 2);
    return string;
}

static void take_answer(struct link *link) {
    size_t length;
    take_string(link, &length);
}

static struct link *consumer(int port, int prefetch) {
    char count[16];
    int length = snprintf(count, sizeof count, "%d", prefetch);
    snprintf(reading, sizeof reading,
             "*11\r\n$10\r\nXREADGROUP\r\n$5\r\nGROUP\r\n$1\r\ns\r\n$1\r\nc\r\n$5\r\nCOUNT\r\n$%d\r\n%s\r\n"
             "$5\r\nBLOCK\r\n$1\r\n0\r\n$7\r\nSTREAMS\r\n$1\r\nt\r\n$1\r\n>\r\n",
             length, count);
    return dial(port);
}

// An entry, whose id goes to the acknowledgement.
static void take_entry(struct link *link, void (*came)(uint64_t number)) {
    size_t length;
    expect(link, 2);
    const char *string = take_string(link, &length);
    put_text(link, "$%zu\r\n%.*s\r\n", length, (int)length, string);
    expect(link, 2);
    take_string(link, &length);
    string = take_string(link, &length);
    if (length < LEAST_PAYLOAD) fail("a message of %zu bytes came", length);
    came(load_number((const unsigned char *)string));
}

static int take_messages(struct link *link, void (*came)(uint64_t number)) {
    size_t length;
    put(link, reading, strlen(reading));
    flush(link);
    expect(link, 1);
    expect(link, 2);
    take_string(link, &length);
    size_t count = take_count(link, '*');
    put_text(link, "*%zu\r\n$4\r\nXACK\r\n$1\r\nt\r\n$1\r\ns\r\n", count + 3);
    for (size_t i = 0; i < count; i++) take_entry(link, came);
    flush(link);
    if (take_count(link, ':') != count) fail("not each of %zu messages was acknowledged", count);
    return count;
}

const struct system redis = {"Redis", dial, consumer, make_ready, put_publish, take_answer, take_messages};
