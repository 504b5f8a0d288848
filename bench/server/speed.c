// How fast the broker is, by a client that costs little: publishes, deliveries, eight topics at once, and a backlog.
// cc -O2 -pthread -o speed speed.c; pulsar_broker FOLDER/broker.db 127.0.0.1:PORT 4 & ./speed PORT FOLDER [BYTES [PART..]]
// BYTES is the size of each payload, 1,024 where it is not said. A part is waiting, paced, through, topics or piped; all are
// measured where none is named.
#define _GNU_SOURCE
#include <arpa/inet.h>
#include <fcntl.h>
#include <netinet/tcp.h>
#include <pthread.h>
#include <stdarg.h>
#include <stdint.h>
#include <stdio.h>
#include <stdlib.h>
#include <string.h>
#include <sys/socket.h>
#include <time.h>
#include <unistd.h>

enum { MOST_PAYLOAD = 5000, MOST = 10000, PAUSE = 5000, COUNT = 1000, FRAME_ROOM = 8192 };
enum { EIGHT = 8, TURNS = 5, EACH = 3000 };
enum { BACKLOG = 50000, UNANSWERED = 1000 };

static int port, payload = 1024;

// A connection, and what came on it that was not read yet.
struct client {
    int socket;
    size_t filled;
    char room[FRAME_ROOM];
};

static _Noreturn void fail(const char *why) {
    fprintf(stderr, "speed: %s\n", why);
    exit(1);
}

static double now_us(void) {
    struct timespec now;
    clock_gettime(CLOCK_MONOTONIC, &now);
    return now.tv_sec * 1e6 + now.tv_nsec / 1e3;
}

static int compare(const void *a, const void *b) {
    double x = *(const double *)a, y = *(const double *)b;
    return (x > y) - (x < y);
}

// The time below which so many thousandths of the times are.
static double part(double *times, int count, int thousandths) {
    qsort(times, count, sizeof *times, compare);
    return times[count * thousandths / 1000];
}

static void send_all(int socket, const char *bytes, size_t count) {
    for (size_t sent = 0; sent < count;) {
        ssize_t some = write(socket, bytes + sent, count - sent);
        if (some <= 0) fail("a write failed");
        sent += some;
    }
}

static void more(struct client *client) {
    ssize_t some = read(client->socket, client->room + client->filled, FRAME_ROOM - client->filled);
    if (some <= 0) fail("the connection ended");
    client->filled += some;
}

static void forget(struct client *client, size_t count) {
    client->filled -= count;
    memmove(client->room, client->room + count, client->filled);
}

// Connects, and says the handshake.
static void begin(struct client *client, const char *format, ...) {
    char target[256], text[512];
    va_list rest;
    va_start(rest, format);
    vsnprintf(target, sizeof target, format, rest);
    va_end(rest);
    struct sockaddr_in address = {.sin_family = AF_INET, .sin_port = htons(port)};
    address.sin_addr.s_addr = htonl(INADDR_LOOPBACK);
    client->socket = socket(AF_INET, SOCK_STREAM, 0);
    client->filled = 0;
    int on = 1;
    setsockopt(client->socket, IPPROTO_TCP, TCP_NODELAY, &on, sizeof on);
    if (connect(client->socket, (struct sockaddr *)&address, sizeof address)) fail("no broker is there");
    int length = snprintf(text, sizeof text,
                          "GET /ws/v2/%s HTTP/1.1\r\nHost: 127.0.0.1\r\nUpgrade: websocket\r\nConnection: Upgrade\r\n"
                          "Sec-WebSocket-Key: AAAAAAAAAAAAAAAAAAAAAA==\r\nSec-WebSocket-Version: 13\r\n\r\n",
                          target);
    send_all(client->socket, text, length);
    char *end;
    while (!(end = memmem(client->room, client->filled, "\r\n\r\n", 4))) more(client);
    if (!memmem(client->room, 16, " 101 ", 5)) fail("the handshake was refused");
    forget(client, end + 4 - client->room);
}

// A client's text frame, whose mask is all zeros; how long it is.
static size_t frame(char *out, const char *text) {
    size_t length = strlen(text), head = length < 126 ? 2 : 4;
    out[0] = (char)0x81;
    out[1] = (char)(0x80 | (length < 126 ? length : 126));
    if (head == 4) {
        out[2] = (char)(length >> 8);
        out[3] = (char)length;
    }
    memset(out + head, 0, 4);
    memcpy(out + head + 4, text, length);
    return head + 4 + length;
}

// The next text, ended by a zero, in the room given.
static void receive(struct client *client, char *text) {
    while (client->filled < 4) more(client);
    size_t length = client->room[1] & 127, head = 2;
    if (length == 126) {
        length = (size_t)(uint8_t)client->room[2] << 8 | (uint8_t)client->room[3];
        head = 4;
    }
    if ((client->room[0] & 15) != 1 || head + length > FRAME_ROOM) fail("no text came");
    while (client->filled < head + length) more(client);
    memcpy(text, client->room + head, length);
    text[length] = 0;
    forget(client, head + length);
}

// A publish of a payload, as a frame.
static size_t publish_frame(char *out) {
    static const char digits[] = "ABCDEFGHIJKLMNOPQRSTUVWXYZabcdefghijklmnopqrstuvwxyz0123456789+/";
    char text[FRAME_ROOM];
    int at = snprintf(text, sizeof text, "{\"payload\":\"");
    for (int i = 0; i < payload / 3 * 4; i++) text[at++] = digits[rand() & 63];
    memcpy(text + at, "aA==\"}", 7);
    return frame(out, text);
}

static void receive_ok(struct client *client) {
    char text[FRAME_ROOM];
    receive(client, text);
    if (!strstr(text, "\"result\":\"ok\"")) fail(text);
}

static void publish(struct client *client, const char *bytes, size_t length) {
    send_all(client->socket, bytes, length);
    receive_ok(client);
}

// The acknowledgement of a delivery, as a frame.
static size_t acknowledgement_frame(char *out, const char *delivery) {
    char text[256];
    const char *id = strstr(delivery, "\"messageId\":\"");
    if (!id) fail(delivery);
    id += 13;
    snprintf(text, sizeof text, "{\"messageId\":\"%.*s\"}", (int)strcspn(id, "\""), id);
    return frame(out, text);
}

// How long each publish takes until its answer, with a pause before each.
static void publishes(const char *topic, int count, int pause, double *times) {
    struct client client;
    char bytes[FRAME_ROOM];
    size_t length = publish_frame(bytes);
    begin(&client, "producer/persistent/public/default/%s", topic);
    for (int i = 0; i < count; i++) {
        if (pause) usleep(pause);
        double before = now_us();
        publish(&client, bytes, length);
        times[i] = now_us() - before;
    }
    close(client.socket);
}

// What each commit waits for at least: a write of a frame of the journal, and the disk's answer.
static void syncs(const char *folder, int count, int pause, double *times) {
    char path[512], bytes[3 * 4120] = {0};
    snprintf(path, sizeof path, "%s/sync", folder);
    int file = open(path, O_CREAT | O_WRONLY, 0600);
    for (int i = 0; i < count; i++) {
        if (pause) usleep(pause);
        double before = now_us();
        if (pwrite(file, bytes, sizeof bytes, (off_t)i * (off_t)sizeof bytes) < 0 || fdatasync(file)) fail("no file");
        times[i] = now_us() - before;
    }
    close(file);
    unlink(path);
}

static double sent[MOST], came[MOST];

// Takes in so many messages, and acknowledges each.
static void *consume(void *consumer) {
    struct client *client = consumer;
    char text[FRAME_ROOM], bytes[512];
    for (int i = 0; i < COUNT; i++) {
        receive(client, text);
        came[i] = now_us();
        send_all(client->socket, bytes, acknowledgement_frame(bytes, text));
    }
    return NULL;
}

// From the sending of a publish until its message has come to a consumer.
static void deliveries(double *times) {
    static struct client consumer, producer;
    char bytes[FRAME_ROOM];
    size_t length = publish_frame(bytes);
    pthread_t thread;
    begin(&consumer, "consumer/persistent/public/default/through/s?subscriptionType=Shared");
    begin(&producer, "producer/persistent/public/default/through");
    pthread_create(&thread, NULL, consume, &consumer);
    for (int i = 0; i < COUNT; i++) {
        usleep(PAUSE);
        sent[i] = now_us();
        publish(&producer, bytes, length);
    }
    pthread_join(thread, NULL);
    for (int i = 0; i < COUNT; i++) times[i] = came[i] - sent[i];
    close(producer.socket);
    close(consumer.socket);
}

static void *publish_many(void *topic) {
    double times[EACH];
    publishes(topic, EACH, 0, times);
    return NULL;
}

// Publishes a second that wait for their answers, of one publisher to each topic; the topics are new in each turn.
static double rate(int topics, int turn) {
    pthread_t threads[EIGHT];
    char names[EIGHT][32];
    double before = now_us();
    for (int i = 0; i < topics; i++) {
        snprintf(names[i], sizeof names[i], "%d-of-%d-in-%d", i, topics, turn);
        pthread_create(&threads[i], NULL, publish_many, names[i]);
    }
    for (int i = 0; i < topics; i++) pthread_join(threads[i], NULL);
    return topics * EACH * 1e6 / (now_us() - before);
}

// One publisher and eight, in turn.
static void rates(void) {
    double one[TURNS], eight[TURNS], quotient[TURNS];
    for (int i = 0; i < TURNS; i++) {
        one[i] = rate(1, i);
        eight[i] = rate(EIGHT, i);
        quotient[i] = eight[i] / one[i];
    }
    double middle = part(quotient, TURNS, 500);
    printf("1 publisher: %.0f a second; %d publishers on %d topics: %.0f a second, %.2f times (%.2f to %.2f)\n",
           part(one, TURNS, 500), EIGHT, EIGHT, part(eight, TURNS, 500), middle, quotient[0], quotient[TURNS - 1]);
}

// Publishes a second of one publisher, of whose texts some may be unanswered; and how long each took until its answer was read.
static double fill(const char *topic, double *times) {
    struct client client;
    char bytes[FRAME_ROOM];
    size_t length = publish_frame(bytes);
    begin(&client, "producer/persistent/public/default/%s", topic);
    double before = now_us();
    for (int asked = 0, answered = 0; answered < BACKLOG;) {
        if (asked < BACKLOG && asked - answered < UNANSWERED) {
            times[asked++] = now_us();
            send_all(client.socket, bytes, length);
        } else {
            receive_ok(&client);
            times[answered] = now_us() - times[answered];
            answered++;
        }
    }
    double took = now_us() - before;
    close(client.socket);
    return BACKLOG * 1e6 / took;
}

// Messages a second of one consumer that acknowledges each, many in one write, until the last has come.
static double drain(const char *topic) {
    struct client client;
    char text[FRAME_ROOM], bytes[4096];
    size_t length = 0;
    double before = now_us();
    begin(&client,
          "consumer/persistent/public/default/%s/s?subscriptionType=Shared&subscriptionInitialPosition=Earliest"
          "&receiverQueueSize=%d",
          topic, UNANSWERED);
    for (int i = 0; i < BACKLOG; i++) {
        receive(&client, text);
        length += acknowledgement_frame(bytes + length, text);
        if (length > sizeof bytes - 512 || i + 1 == BACKLOG) {
            send_all(client.socket, bytes, length);
            length = 0;
        }
    }
    double took = now_us() - before;
    close(client.socket);
    return BACKLOG * 1e6 / took;
}

// Publishes one after the other, each of which waits for its answer.
static void waiting(const char *folder) {
    double times[MOST];
    syncs(folder, COUNT, 0, times);
    double disk = part(times, COUNT, 500);
    publishes("warm", 200, 0, times);
    publishes("alone", MOST, 0, times);
    double alone = part(times, MOST, 500);
    printf("fdatasync: p50 %.0f us\n", disk);
    printf("publish of %d bytes, answered: p50 %.0f us, p99 %.0f us, p99.9 %.0f us; p50 %.0f us more than fdatasync\n",
           payload, alone, part(times, MOST, 990), part(times, MOST, 999), alone - disk);
}

static void paced(const char *folder) {
    double times[COUNT];
    syncs(folder, COUNT, PAUSE, times);
    double disk = part(times, COUNT, 500);
    publishes("paced", COUNT, PAUSE, times);
    printf("every 5 ms: fdatasync p50 %.0f us, publish p50 %.0f us\n", disk, part(times, COUNT, 500));
}

static void through(void) {
    double times[COUNT];
    deliveries(times);
    printf("end to end at 200 a second: p50 %.0f us, p99 %.0f us\n", part(times, COUNT, 500), part(times, COUNT, 990));
}

static void piped(void) {
    static double times[BACKLOG];
    double filling = fill("backlog", times);
    printf("up to %d unanswered: %.0f publishes a second; a backlog of %d: %.0f messages a second\n", UNANSWERED, filling,
           BACKLOG, drain("backlog"));
    printf("of these publishes, answered: p50 %.0f us, p99 %.0f us, p99.9 %.0f us\n", part(times, BACKLOG, 500),
           part(times, BACKLOG, 990), part(times, BACKLOG, 999));
}

// Whether a part is among those that are named, which all are where none is.
static int is_asked(const char *part, char **parts) {
    if (!*parts) return 1;
    while (*parts && strcmp(*parts, part)) parts++;
    return *parts != NULL;
}

int main(int count, char **words) {
    if (count < 3) fail("usage: speed PORT FOLDER [BYTES [PART..]]");
    port = atoi(words[1]);
    if (count > 3) payload = atoi(words[3]);
    if (payload < 1 || payload > MOST_PAYLOAD) fail("payloads have 1 to 5000 bytes");
    char **parts = words + (count > 3 ? 4 : 3);
    setvbuf(stdout, NULL, _IOLBF, 0);
    if (is_asked("waiting", parts)) waiting(words[2]);
    if (is_asked("paced", parts)) paced(words[2]);
    if (is_asked("through", parts)) through();
    if (is_asked("topics", parts)) rates();
    if (is_asked("piped", parts)) piped();
    return 0;
}
