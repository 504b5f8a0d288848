// A client that publishes numbers to one topic and consumes them in many subscriptions, and goes on over kills of the broker:
// each number has to come to each subscription, and none again that was acknowledged a second before a publish was sent that
// was answered before the kill: its commit has the acknowledgement too, however long the disk takes.
// cc -O2 -pthread -o endless endless.c; ./endless PORT COUNT SUBSCRIPTIONS TYPE CONSUMERS KEYS DEAD SLOW
// KEYS 0: without keys. DEAD n: each n-th message is given back until it dies, and has to come to the dead-letter topic once.
// SLOW us: the last subscription waits so long for each message. endless.py runs it.
#define _GNU_SOURCE
#include <arpa/inet.h>
#include <netinet/tcp.h>
#include <pthread.h>
#include <stdatomic.h>
#include <stdint.h>
#include <stdio.h>
#include <stdlib.h>
#include <string.h>
#include <sys/socket.h>
#include <time.h>
#include <unistd.h>

enum { ROOM = 1 << 20, TEXT = 4096, UNANSWERED = 1000, RING = 1 << 20, MOST_SUBS = 64, SIDE = 1 << 16 };

struct client {
    int socket;
    size_t begin, end;
    char *room;
};

// What a subscription has got.
struct sub {
    _Atomic uint8_t *seen;
    _Atomic uint64_t *acked;        // the time of the last acknowledgement of a number, in milliseconds
    atomic_long count, again, late;
};

static int port, subs, consumers, keys;
static long count, dead, slow;
static const char *type;
static struct sub all[MOST_SUBS], letters;
static atomic_long answered, doubles;
static _Atomic uint64_t *sent, stored;  // when each publish was sent, and the last one that was answered
static atomic_int finished;

static uint64_t millis(void) {
    struct timespec now;
    clock_gettime(CLOCK_MONOTONIC, &now);
    return now.tv_sec * 1000ull + now.tv_nsec / 1000000;
}

static _Noreturn void fail(const char *why, const char *text) {
    fprintf(stderr, "endless: %s: %.200s\n", why, text);
    exit(1);
}

static int send_all(int socket, const char *bytes, size_t size) {
    for (size_t sent = 0; sent < size;) {
        ssize_t some = send(socket, bytes + sent, size - sent, MSG_NOSIGNAL);
        if (some <= 0) return 0;
        sent += some;
    }
    return 1;
}

// Reads some more; 0 where the connection has ended.
static int more(struct client *c, int flags) {
    if (c->begin) {
        memmove(c->room, c->room + c->begin, c->end - c->begin);
        c->end -= c->begin;
        c->begin = 0;
    }
    ssize_t some = recv(c->socket, c->room + c->end, ROOM - c->end, flags);
    if (some <= 0) return 0;
    c->end += some;
    return 1;
}

// Connects; 0 where no broker is there.
static int begin(struct client *c, const char *target) {
    char text[1024];
    struct sockaddr_in address = {.sin_family = AF_INET, .sin_port = htons(port)};
    address.sin_addr.s_addr = htonl(INADDR_LOOPBACK);
    c->socket = socket(AF_INET, SOCK_STREAM, 0);
    c->begin = c->end = 0;
    int on = 1;
    setsockopt(c->socket, IPPROTO_TCP, TCP_NODELAY, &on, sizeof on);
    int size = snprintf(text, sizeof text,
                        "GET /ws/v2/%s HTTP/1.1\r\nHost: 127.0.0.1\r\nUpgrade: websocket\r\nConnection: Upgrade\r\n"
                        "Sec-WebSocket-Key: AAAAAAAAAAAAAAAAAAAAAA==\r\nSec-WebSocket-Version: 13\r\n\r\n",
                        target);
    if (!connect(c->socket, (struct sockaddr *)&address, sizeof address) && send_all(c->socket, text, size)) {
        char *found;
        while (!(found = memmem(c->room, c->end, "\r\n\r\n", 4)))
            if (!more(c, 0)) break;
        if (found && memmem(c->room, 16, " 101 ", 5)) {
            c->begin = found + 4 - c->room;
            return 1;
        }
    }
    close(c->socket);
    usleep(50000);
    return 0;
}

static size_t frame(char *out, int kind, const char *text, size_t length) {
    size_t head = length < 126 ? 2 : 4;
    out[0] = (char)(0x80 | kind);
    out[1] = (char)(0x80 | (length < 126 ? length : 126));
    if (head == 4) {
        out[2] = (char)(length >> 8);
        out[3] = (char)length;
    }
    memset(out + head, 0, 4);
    memcpy(out + head + 4, text, length);
    return head + 4 + length;
}

// The next text: its length; 0 where none is there now (without waiting) or the connection has ended (-1).
static long receive(struct client *c, char *text, int waits) {
    for (;;) {
        size_t there = c->end - c->begin;
        unsigned char *at = (unsigned char *)c->room + c->begin;
        size_t length = there > 1 ? at[1] & 127 : 0, head = 2;
        if (there > 3 && length == 126) {
            length = (size_t)at[2] << 8 | at[3];
            head = 4;
        }
        if (there >= 4 && there >= head + length) {
            int kind = at[0] & 15;
            c->begin += head + length;
            if (kind == 8) return -1;
            if (kind == 9) {
                char pong[140];
                if (!send_all(c->socket, pong, frame(pong, 10, (char *)at + head, length))) return -1;
                continue;
            }
            memcpy(text, at + head, length);
            text[length] = 0;
            return (long)length;
        }
        if (!waits) {
            ssize_t some = recv(c->socket, text, 1, MSG_PEEK | MSG_DONTWAIT);
            if (some < 0) return 0;
        }
        if (!more(c, 0)) return -1;
    }
}

static const char digits[] = "ABCDEFGHIJKLMNOPQRSTUVWXYZabcdefghijklmnopqrstuvwxyz0123456789+/";

// Twelve decimal digits, in base64.
static void payload_of(long number, char *out) {
    char text[24];
    snprintf(text, sizeof text, "%012ld", number);
    for (int i = 0; i < 4; i++) {
        unsigned bits = (unsigned)text[3 * i] << 16 | (unsigned)text[3 * i + 1] << 8 | (unsigned)text[3 * i + 2];
        for (int j = 0; j < 4; j++) *out++ = digits[bits >> (18 - 6 * j) & 63];
    }
    *out = 0;
}

static long number_in(const char *text) {
    const char *at = strstr(text, "\"payload\":\"");
    if (!at) fail("no delivery", text);
    char plain[13];
    at += 11;
    for (int i = 0; i < 4; i++) {
        unsigned bits = 0;
        for (int j = 0; j < 4; j++) bits = bits << 6 | (unsigned)(strchr(digits, *at++) - digits);
        plain[3 * i] = (char)(bits >> 16);
        plain[3 * i + 1] = (char)(bits >> 8);
        plain[3 * i + 2] = (char)bits;
    }
    plain[12] = 0;
    return atol(plain);
}

// Publishes all numbers under one name, and again what was not answered.
static void *publish(void *none) {
    (void)none;
    struct client c = {.room = malloc(ROOM)};
    char target[256], text[TEXT], *out = malloc(SIDE);
    while (answered < count) {
        snprintf(target, sizeof target, "producer/persistent/public/default/endless?producerName=p&initialSequenceId=%ld", answered - 1);
        if (!begin(&c, target)) continue;
        long asked = answered, length = 1;
        while (answered < count && length > 0) {
            size_t size = 0;
            while (asked < count && asked - answered < UNANSWERED && size < SIDE - 512) {
                char body[128], payload[20];
                payload_of(asked, payload);
                int said = keys ? snprintf(body, sizeof body, "{\"key\":\"k%ld\",\"payload\":\"%s\"}", asked % keys, payload)
                                : snprintf(body, sizeof body, "{\"payload\":\"%s\"}", payload);
                size += frame(out + size, 1, body, said);
                sent[asked % RING] = millis();
                asked++;
            }
            if (size && !send_all(c.socket, out, size)) break;
            for (int waits = 1; (length = receive(&c, text, waits)) > 0; waits = 0) {
                if (!strstr(text, "\"result\":\"ok\"")) fail("a publish was refused", text);
                if (strstr(text, "CP///")) doubles++;
                stored = sent[answered % RING];
                answered++;
            }
            if (length == 0) length = 1;
        }
        close(c.socket);
        if (answered < count) usleep(50000);
    }
    return NULL;
}

static void note(struct sub *s, long number, uint64_t lost, int acknowledges) {
    if (number < 0 || number >= count) fail("a number that was not published", "");
    if (atomic_exchange(&s->seen[number], 1)) {
        s->again++;
        uint64_t then = s->acked[number % RING];
        if (lost && then >> 24 && (long)(then & 0xffffff) == (number & 0xffffff) && lost > (then >> 24) + 1000) s->late++;
    } else {
        s->count++;
    }
    if (acknowledges) s->acked[number % RING] = millis() << 24 | (uint64_t)(number & 0xffffff);
}

struct seat {
    struct sub *sub;
    int number, is_letters;
};

// Takes in what comes, over all kills.
static void *consume(void *given) {
    struct seat *seat = given;
    struct client c = {.room = malloc(ROOM)};
    char target[300], text[TEXT], *out = malloc(SIDE);
    uint64_t lost = 0;
    const char *name = seat->is_letters ? "endless-s0-DLQ/d" : "endless";
    while (!finished) {
        if (seat->is_letters)
            snprintf(target, sizeof target, "consumer/persistent/public/default/%s?subscriptionInitialPosition=Earliest", name);
        else
            snprintf(target, sizeof target,
                     "consumer/persistent/public/default/%s/s%d?subscriptionType=%s&subscriptionInitialPosition=Earliest&receiverQueueSize=1000%s",
                     name, seat->number, type, dead ? "&maxRedeliverCount=1&negativeAckRedeliveryDelay=50" : "");
        if (!begin(&c, target)) continue;
        size_t size = 0;
        long length;
        while (!finished && (length = receive(&c, text, size == 0)) >= 0) {
            if (length) {
                long number = number_in(text);
                int dies = dead && !seat->is_letters && number % dead == 0;
                const char *id = strstr(text, "\"messageId\":\"") + 13;
                char said[128];
                int saying = snprintf(said, sizeof said, dies ? "{\"messageId\":\"%.*s\",\"type\":\"negativeAcknowledge\"}" : "{\"messageId\":\"%.*s\"}",
                                      (int)strcspn(id, "\""), id);
                if (!dies) note(seat->sub, number, lost, 1);
                size += frame(out + size, 1, said, saying);
                if (slow && seat->number == subs - 1 && !seat->is_letters) usleep(slow);
            }
            if (size > SIDE - 512 || (!length && size)) {
                if (!send_all(c.socket, out, size)) break;
                size = 0;
            }
        }
        close(c.socket);
        usleep(50000);
        lost = stored;
    }
    return NULL;
}

static void prepare(struct sub *s) {
    s->seen = calloc(count, 1);
    s->acked = calloc(RING, sizeof *s->acked);
    if (!s->seen || !s->acked) fail("no memory", "");
}

int main(int words, char **word) {
    if (words != 9) fail("usage", "endless PORT COUNT SUBSCRIPTIONS TYPE CONSUMERS KEYS DEAD SLOW");
    port = atoi(word[1]), count = atol(word[2]), subs = atoi(word[3]), type = word[4], consumers = atoi(word[5]);
    keys = atoi(word[6]), dead = atol(word[7]), slow = atol(word[8]);
    sent = calloc(RING, sizeof *sent);
    if (!sent) fail("no memory", "");
    pthread_t thread;
    for (int i = 0; i < subs; i++) {
        prepare(&all[i]);
        for (int j = 0; j < consumers; j++) {
            struct seat *seat = malloc(sizeof *seat);
            *seat = (struct seat){&all[i], i, 0};
            pthread_create(&thread, NULL, consume, seat);
        }
    }
    if (dead) {
        prepare(&letters);
        struct seat *seat = malloc(sizeof *seat);
        *seat = (struct seat){&letters, 0, 1};
        pthread_create(&thread, NULL, consume, seat);
    }
    sleep(1);       // so that each subscription is there before the first message
    pthread_t publisher;
    uint64_t start = millis();
    pthread_create(&publisher, NULL, publish, NULL);
    long wanted = dead ? count - (count + dead - 1) / dead : count, dying = dead ? (count + dead - 1) / dead : 0;
    for (int least = 0; least < subs || letters.count < dying;) {
        usleep(200000);
        least = 0;
        for (int i = 0; i < subs; i++) least += all[i].count >= wanted;
        static int turns;
        if (++turns % 5 == 0) printf("%ld published, %ld came, %d of %d subscriptions have all\n", answered, all[0].count, least, subs), fflush(stdout);
    }
    double took = (millis() - start) / 1000.0;
    sleep(2);
    finished = 1;
    long again = letters.again, late = letters.late;
    for (int i = 0; i < subs; i++) again += all[i].again, late += all[i].late;
    printf("%ld messages in %.1f s, %.0f a second; each came to each of %d subscriptions; %ld were published again and known; "
           "%ld came again, %ld of them acknowledged a second before a publish that was answered\n",
           count, took, count / took, subs, doubles, again, late);
    if (dead) printf("%ld letters came, %ld of them again\n", letters.count, letters.again);
    exit(late > 0);
}
