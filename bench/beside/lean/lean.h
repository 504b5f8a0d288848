// What the files of the client in C share: a connection, and what a system's publishes and messages are on it.
#include <stddef.h>
#include <stdint.h>

enum { LEAST_PAYLOAD = 9, MOST_PAYLOAD = 8192, ROOM = 1 << 18 };

// A connection, with what came on it that was not taken yet, and what goes out with the next flush.
struct link {
    int socket;
    size_t start, end, kept;
    char in[ROOM], out[ROOM];
};

// A system that keeps the topic t with its subscription s. A publish's payload begins with the publish's number, of eight
// bytes; all behind them is the same in each, and made ready once. What is no ok fails.
struct system {
    const char *name;
    struct link *(*publisher)(int port);
    struct link *(*consumer)(int port, int prefetch);
    void (*make_ready)(const unsigned char *payload, size_t length);
    void (*put_publish)(struct link *, uint64_t number);
    void (*take_answer)(struct link *);
    // Waits for messages, tells the number of each, and acknowledges each; how many there were.
    int (*take_messages)(struct link *, void (*came)(uint64_t number));
};

extern const struct system redis, broker;

_Noreturn void fail(const char *format, ...);

struct link *dial(int port);
void hang_up(struct link *);
int has(const struct link *, size_t count);
char *need(struct link *, size_t count);
char *find(struct link *, const char *end, size_t *length);
void take(struct link *, size_t count);
void put(struct link *, const void *bytes, size_t count);
void put_text(struct link *, const char *format, ...);
void flush(struct link *);

void store_number(unsigned char *bytes, uint64_t number);
uint64_t load_number(const unsigned char *bytes);
