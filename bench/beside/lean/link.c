// A connection that is read and written by as much at once as there is.
#define _GNU_SOURCE
#include "lean.h"

#include <arpa/inet.h>
#include <netinet/tcp.h>
#include <stdarg.h>
#include <stdio.h>
#include <stdlib.h>
#include <string.h>
#include <sys/socket.h>
#include <unistd.h>

_Noreturn void fail(const char *format, ...) {
    va_list rest;
    va_start(rest, format);
    fputs("lean: ", stderr);
    vfprintf(stderr, format, rest);
    fputc('\n', stderr);
    exit(1);
}

struct link *dial(int port) {
    struct link *link = malloc(sizeof *link);
    if (!link) fail("there is no memory");
    struct sockaddr_in address = {.sin_family = AF_INET, .sin_port = htons(port)};
    address.sin_addr.s_addr = htonl(INADDR_LOOPBACK);
    link->socket = socket(AF_INET, SOCK_STREAM, 0);
    link->start = link->end = link->kept = 0;
    int on = 1;
    setsockopt(link->socket, IPPROTO_TCP, TCP_NODELAY, &on, sizeof on);
    if (connect(link->socket, (struct sockaddr *)&address, sizeof address)) fail("nobody listens at %d", port);
    return link;
}

void hang_up(struct link *link) {
    close(link->socket);
    free(link);
}

// Waits for bytes, behind those that are there.
static void more(struct link *link) {
    if (link->end == ROOM) {
        memmove(link->in, link->in + link->start, link->end - link->start);
        link->end -= link->start;
        link->start = 0;
    }
    if (link->end == ROOM) fail("what came is too long");
    ssize_t some = read(link->socket, link->in + link->end, ROOM - link->end);
    if (some <= 0) fail("the connection ended");
    link->end += some;
}

int has(const struct link *link, size_t count) {
    return link->end - link->start >= count;
}

// So many bytes, which are there until more is needed.
char *need(struct link *link, size_t count) {
    while (!has(link, count)) more(link);
    return link->in + link->start;
}

// All up to the next end of this kind, without it, and how long that is.
char *find(struct link *link, const char *end, size_t *length) {
    char *at;
    while (!(at = memmem(link->in + link->start, link->end - link->start, end, strlen(end)))) more(link);
    *length = at - (link->in + link->start);
    return link->in + link->start;
}

// What was taken is not there any more. Where nothing is left the room begins anew.
void take(struct link *link, size_t count) {
    link->start += count;
    if (link->start == link->end) link->start = link->end = 0;
}

void flush(struct link *link) {
    for (size_t sent = 0; sent < link->kept;) {
        ssize_t some = write(link->socket, link->out + sent, link->kept - sent);
        if (some <= 0) fail("a write failed");
        sent += some;
    }
    link->kept = 0;
}

void put(struct link *link, const void *bytes, size_t count) {
    if (count > ROOM - link->kept) flush(link);
    memcpy(link->out + link->kept, bytes, count);
    link->kept += count;
}

void put_text(struct link *link, const char *format, ...) {
    char text[512];
    va_list rest;
    va_start(rest, format);
    int length = vsnprintf(text, sizeof text, format, rest);
    va_end(rest);
    if (length < 0 || (size_t)length >= sizeof text) fail("a text is too long");
    put(link, text, length);
}

void store_number(unsigned char *bytes, uint64_t number) {
    for (int i = 0; i < 8; i++) bytes[i] = number >> (56 - 8 * i);
}

uint64_t load_number(const unsigned char *bytes) {
    uint64_t number = 0;
    for (int i = 0; i < 8; i++) number = number << 8 | bytes[i];
    return number;
}
