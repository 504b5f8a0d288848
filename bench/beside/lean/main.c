// Measures Redis and the broker by a client that costs little, with the same loops for both. The program in Go starts it, for each
// measure anew, beside a system that has the topic and its subscription, and reads the numbers that it prints.
//   lean SYSTEM PORT waiting COUNT BYTES                       publishes that wait: p50, p99 and p99.9 in µs
//   lean SYSTEM PORT backlog COUNT BYTES UNANSWERED PREFETCH   publishes, and then acknowledged messages, a second
//   lean SYSTEM PORT paced COUNT BYTES RATE PREFETCH           from a publish to its message: p50 and p99 in µs
#define _GNU_SOURCE
#include "lean.h"

#include <pthread.h>
#include <stdio.h>
#include <stdlib.h>
#include <string.h>
#include <time.h>

enum { WARMING = 100, MOST = 1 << 24 };

static const struct system *of;
static int port;

static double now(void) {
    struct timespec now;
    clock_gettime(CLOCK_MONOTONIC, &now);
    return now.tv_sec * 1e6 + now.tv_nsec / 1e3;
}

static int compare(const void *a, const void *b) {
    double x = *(const double *)a, y = *(const double *)b;
    return (x > y) - (x < y);
}

// The times below which so many thousandths of the times are.
static void print_parts(double *times, int count, const int *thousandths, int parts) {
    qsort(times, count, sizeof *times, compare);
    for (int i = 0; i < parts; i++) printf("%.3f\n", times[(long)count * thousandths[i] / 1000]);
}

static double *new_times(int count) {
    double *times = calloc(count, sizeof *times);
    if (!times) fail("there is no memory");
    return times;
}

static void make_ready(int length) {
    unsigned char payload[MOST_PAYLOAD];
    if (length < LEAST_PAYLOAD || length > MOST_PAYLOAD) fail("payloads have %d to %d bytes", LEAST_PAYLOAD, MOST_PAYLOAD);
    for (int i = 0; i < length; i++) payload[i] = rand() >> 8;
    of->make_ready(payload, length);
}

static void publish(struct link *link, uint64_t number) {
    of->put_publish(link, number);
    flush(link);
    of->take_answer(link);
}

// How long each publish takes until its answer, after some that are not counted.
static void waiting(int count) {
    struct link *link = of->publisher(port);
    double *times = new_times(count);
    for (int i = 0; i < WARMING; i++) publish(link, i);
    for (int i = 0; i < count; i++) {
        double before = now();
        publish(link, i);
        times[i] = now() - before;
    }
    hang_up(link);
    print_parts(times, count, (int[]){500, 990, 999}, 3);
}

// What goes out next goes once no answer is left that has come.
static double fill(int count, int unanswered) {
    struct link *link = of->publisher(port);
    double before = now();
    for (int asked = 0, answered = 0; answered < count; answered++) {
        if (!has(link, 1)) {
            while (asked < count && asked - answered < unanswered) of->put_publish(link, asked++);
            flush(link);
        }
        of->take_answer(link);
    }
    double took = now() - before;
    hang_up(link);
    return count * 1e6 / took;
}

// When each message was sent and came, by its number, or only that it came.
static double *sent, *came;
static int expected;

static void arrived(uint64_t number) {
    if (number >= (uint64_t)expected || came[number]) {
        fail("message %llu came again, or was not published", (unsigned long long)number);
    }
    came[number] = now();
}

static void expect_messages(int count) {
    expected = count;
    came = new_times(count);
    sent = new_times(count);
}

// Takes in all messages: none comes twice, so so many are all.
static void *consume(void *link) {
    for (int left = expected; left > 0;) left -= of->take_messages(link, arrived);
    return NULL;
}

static double drain(int prefetch) {
    double before = now();
    consume(of->consumer(port, prefetch));
    return expected * 1e6 / (now() - before);
}

static void sleep_until(double moment) {
    struct timespec until = {moment / 1e6, (moment - (long)(moment / 1e6) * 1e6) * 1e3};
    clock_nanosleep(CLOCK_MONOTONIC, TIMER_ABSTIME, &until, NULL);
}

// So many a second, or fewer where an answer takes longer than the time between two.
static void publish_paced(int rate) {
    struct link *link = of->publisher(port);
    double moment = now();
    for (int i = 0; i < expected; i++) {
        moment += 1e6 / rate;
        sleep_until(moment);
        sent[i] = now();
        publish(link, i);
        if (moment < sent[i] - 1e6 / rate) moment = sent[i];
    }
    hang_up(link);
}

static void paced(int count, int rate, int prefetch) {
    pthread_t thread;
    expect_messages(count + WARMING);
    if (pthread_create(&thread, NULL, consume, of->consumer(port, prefetch))) fail("there is no thread");
    publish_paced(rate);
    pthread_join(thread, NULL);
    for (int i = 0; i < expected; i++) came[i] -= sent[i];
    print_parts(came + WARMING, count, (int[]){500, 990}, 2);
}

static void backlog(int count, int unanswered, int prefetch) {
    expect_messages(count);
    double filling = fill(count, unanswered);
    printf("%.3f\n%.3f\n", filling, drain(prefetch));
}

static int number(const char *word) {
    int number = atoi(word);
    if (number < 1 || number > MOST) fail("%s is no number from 1 to %d", word, MOST);
    return number;
}

static const struct system *named(const char *name) {
    if (!strcmp(name, redis.name)) return &redis;
    if (!strcmp(name, broker.name)) return &broker;
    fail("%s is neither %s nor %s", name, redis.name, broker.name);
}

int main(int words, char **word) {
    static const char usage[] = "usage: lean SYSTEM PORT waiting COUNT BYTES | backlog COUNT BYTES UNANSWERED PREFETCH |"
                                " paced COUNT BYTES RATE PREFETCH";
    if (words < 6) fail("%s", usage);
    of = named(word[1]);
    port = number(word[2]);
    const char *measure = word[3];
    int count = number(word[4]);
    make_ready(number(word[5]));
    if (!strcmp(measure, "waiting") && words == 6) {
        waiting(count);
    } else if (!strcmp(measure, "backlog") && words == 8) {
        backlog(count, number(word[6]), number(word[7]));
    } else if (!strcmp(measure, "paced") && words == 8) {
        paced(count, number(word[6]), number(word[7]));
    } else {
        fail("%s", usage);
    }
    return 0;
}
