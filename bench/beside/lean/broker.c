// The broker: texts of JSON in frames of a WebSocket, whose masks are all zeros.
#define _GNU_SOURCE
#include "lean.h"

#include <stdio.h>
#include <string.h>

static const char digits[] = "ABCDEFGHIJKLMNOPQRSTUVWXYZabcdefghijklmnopqrstuvwxyz0123456789+/";
static const char before[] = "{\"payload\":\"";
static char ready[MOST_PAYLOAD / 3 * 4 + 128];
static size_t ready_length, number_at;
static unsigned char first[LEAST_PAYLOAD];

// Three bytes as four digits of base64.
static void encode(char *out, const unsigned char *bytes) {
    uint32_t bits = bytes[0] << 16 | bytes[1] << 8 | bytes[2];
    for (int i = 0; i < 4; i++) out[i] = digits[bits >> (18 - 6 * i) & 63];
}

static uint32_t digit(char letter) {
    if (letter >= 'A' && letter <= 'Z') return letter - 'A';
    if (letter >= 'a' && letter <= 'z') return letter - 'a' + 26;
    if (letter >= '0' && letter <= '9') return letter - '0' + 52;
    return letter == '+' ? 62 : 63;
}

static void decode(unsigned char *out, const char *letters) {
    uint32_t bits = 0;
    for (int i = 0; i < 4; i++) bits = bits << 6 | digit(letters[i]);
    for (int i = 0; i < 3; i++) out[i] = bits >> (16 - 8 * i);
}

// The head of a client's frame for a text of this length; how long the head is.
static size_t head(unsigned char *out, size_t length) {
    size_t at = 2;
    out[0] = 0x81;
    out[1] = 0x80 | (length < 126 ? length : 126);
    if (length >= 126) {
        out[at++] = length >> 8;
        out[at++] = length;
    }
    memset(out + at, 0, 4);
    return at + 4;
}

static void make_ready(const unsigned char *payload, size_t length) {
    unsigned char last[3] = {0};
    size_t whole = length / 3, rest = length % 3, digits_of = (whole + (rest > 0)) * 4;
    char *at = ready + head((unsigned char *)ready, strlen(before) + digits_of + 2);
    at = mempcpy(at, before, strlen(before));
    number_at = at - ready;
    for (size_t i = 0; i < whole; i++, at += 4) encode(at, payload + 3 * i);
    if (rest) {
        memcpy(last, payload + 3 * whole, rest);
        encode(at, last);
        memset(at + rest + 1, '=', 3 - rest);
        at += 4;
    }
    at = mempcpy(at, "\"}", 2);
    ready_length = at - ready;
    memcpy(first, payload, sizeof first);
}

static void put_publish(struct link *link, uint64_t number) {
    store_number(first, number);
    for (int i = 0; i < 3; i++) encode(ready + number_at + 4 * i, first + 3 * i);
    put(link, ready, ready_length);
}

// Connects, and says the handshake.
static struct link *begin(int port, const char *target) {
    struct link *link = dial(port);
    put_text(link,
             "GET /ws/v2/%s HTTP/1.1\r\nHost: 127.0.0.1\r\nUpgrade: websocket\r\nConnection: Upgrade\r\n"
             "Sec-WebSocket-Key: AAAAAAAAAAAAAAAAAAAAAA==\r\nSec-WebSocket-Version: 13\r\n\r\n",
             target);
    flush(link);
    size_t length;
    char *answer = find(link, "\r\n\r\n", &length);
    if (!memmem(answer, length, " 101 ", 5)) fail("the handshake was refused: %.*s", (int)length, answer);
    take(link, length + 4);
    return link;
}

static struct link *publisher(int port) {
    return begin(port, "producer/persistent/public/default/t");
}

static struct link *consumer(int port, int prefetch) {
    char target[256];
    snprintf(target, sizeof target,
             "consumer/persistent/public/default/t/s?subscriptionType=Exclusive&subscriptionInitialPosition=Earliest"
             "&receiverQueueSize=%d",
             prefetch);
    return begin(port, target);
}

// How long a frame's head is, and its text, where all of the head has come.
static size_t lengths(const unsigned char *bytes, size_t *text) {
    if (bytes[0] != 0x81 || bytes[1] > 126) fail("a frame came that is no short text");
    *text = bytes[1] < 126 ? bytes[1] : bytes[2] << 8 | bytes[3];
    return bytes[1] < 126 ? 2 : 4;
}

// Each text is longer than the head that has its length.
static int has_text(const struct link *link) {
    size_t length;
    return has(link, 4) && has(link, lengths((const unsigned char *)link->in + link->start, &length) + length);
}

// The next text, which is there until more is needed, and how long it is.
static const char *take_text(struct link *link, size_t *length) {
    size_t head = lengths((unsigned char *)need(link, 4), length);
    const char *frame = need(link, head + *length);
    take(link, head + *length);
    return frame + head;
}

static void take_answer(struct link *link) {
    size_t length;
    const char *text = take_text(link, &length);
    if (!memmem(text, length, "\"result\":\"ok\"", 13)) fail("a publish was answered %.*s", (int)length, text);
}

// The value of a name in a text, up to the quote behind it.
static const char *value(const char *text, size_t length, const char *name, size_t least) {
    const char *at = memmem(text, length, name, strlen(name));
    if (!at || (size_t)(text + length - at) < strlen(name) + least) fail("it has no %s: %.*s", name, (int)length, text);
    return at + strlen(name);
}

static void put_acknowledgement(struct link *link, const char *text, size_t length) {
    const char *id = value(text, length, "\"messageId\":\"", 1);
    const char *end = memchr(id, '"', text + length - id);
    if (!end || end - id > 64) fail("an id has no end");
    unsigned char bytes[128];
    size_t of_text = strlen("{\"messageId\":\"\"}") + (end - id), at = head(bytes, of_text);
    put(link, bytes, at);
    put_text(link, "{\"messageId\":\"%.*s\"}", (int)(end - id), id);
}

static uint64_t number_of(const char *text, size_t length) {
    const char *payload = value(text, length, "\"payload\":\"", 12);
    unsigned char bytes[LEAST_PAYLOAD];
    for (int i = 0; i < 3; i++) decode(bytes + 3 * i, payload + 4 * i);
    return load_number(bytes);
}

static int take_messages(struct link *link, void (*came)(uint64_t number)) {
    int count = 0;
    do {
        size_t length;
        const char *text = take_text(link, &length);
        came(number_of(text, length));
        put_acknowledgement(link, text, length);
        count++;
    } while (has_text(link));
    flush(link);
    return count;
}

const struct system broker = {"broker", publisher, consumer, make_ready, put_publish, take_answer, take_messages};
