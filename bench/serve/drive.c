// A load driver for `linda serve`, built by run.py with cc. It speaks frames as docs/PROTOCOL.md defines them, over
// connections of one thread.
//
//     drive sync FILE SECONDS                          appends 64 bytes and syncs the data, over and over
//     drive put PORT PID CLIENTS IDLE FLIGHT SECONDS   each client keeps FLIGHT puts under way
//     drive pair PORT PID CLIENTS IDLE SECONDS         each client puts a tuple, asks for one, and takes it
//     drive wake PORT PID TAKERS SECONDS               takers wait; one client puts, until one of them has taken it
//     drive hold PORT COUNT..                          greets until COUNT connections are there, says so, and waits
//                                                      for a line; for each count in turn
//     drive redis-put .., redis-pair .., redis-wake ..
//     drive redis-hold ..                              the same with Redis: RPUSH puts, LPOP takes, BLPOP waits
//
// PID is the server's process. IDLE more connections are greeted before the load, and do nothing. Redis is not greeted, and
// has no offers: a taker has the tuple with its first reply. The time of a put is
// from its message to its Stored, that of a pair from the message of the put to the Taken: all that waits in this one
// thread counts. At the end what is under way is waited for, and nothing new is sent. It prints lines of a word and
// numbers, and ends with 1 at any other reply, or if none comes for ten seconds:
//
//     slice N            what was acknowledged in a 50 ms slice; one line for each
//     wake OFFER TAKEN   nanoseconds from the put until a taker has the offer, and the tuple; one line for each put
//     latency A B C      nanoseconds: 50, 99 and 99.9 in 100 of all puts, pairs or wakes took no longer
//     gap N              nanoseconds: the greatest time between two acknowledgements of any clients
//     server A N V I     acknowledged puts and takes in all, and what the server used for them: nanoseconds of the
//                        processors, voluntary and involuntary context switches of its threads
//     driver P E         nanoseconds of a processor that this thread used meanwhile, and that went by
//     held N             N connections are there

#include <arpa/inet.h>
#include <dirent.h>
#include <errno.h>
#include <fcntl.h>
#include <inttypes.h>
#include <netinet/in.h>
#include <netinet/tcp.h>
#include <stdio.h>
#include <stdlib.h>
#include <string.h>
#include <sys/epoll.h>
#include <sys/socket.h>
#include <time.h>
#include <unistd.h>

enum { VERSION = 2, HELLO = 1, OUT = 2, ASK = 3, ACCEPT = 4 };
enum { WELCOME = 0x11, STORED = 0x12, OFFER = 0x13, TAKEN = 0x15 };
// A server keeps 65,536 client numbers. No frame that comes here is longer than REST.
enum { ROOM = 1 << 16, REST = 64, MOST = 1 << 16, SLICES = 100000, SLICE = 50000000, PATIENCE = 10 };

// A connection with the front of a frame that has not come whole, and when each thing that is under way began.
struct connection {
    int stream;
    uint64_t number, ticket, puts, answers;
    size_t length;
    unsigned char rest[REST];
    uint64_t sent[];
};

static struct connection *all[MOST];
static int count, epoll, flight = 1, under_way, is_redis;
static pid_t server;
static uint64_t began, began_processor, until, moment, last, gap, acknowledged, slices[SLICES], job;
static uint64_t *times;
static size_t timed, timed_room;
// The bytes that came and those to send, for the connection that is at hand.
static unsigned char came[REST + ROOM], going[ROOM];
static size_t to_go;

static uint64_t nanoseconds_of(clockid_t clock) {
    struct timespec t = {0};
    clock_gettime(clock, &t);
    return (uint64_t)t.tv_sec * 1000000000u + (uint64_t)t.tv_nsec;
}

static uint64_t now(void) {
    return nanoseconds_of(CLOCK_MONOTONIC);
}

// The load begins now, and lasts for this time.
static void start(uint64_t nanoseconds) {
    began_processor = nanoseconds_of(CLOCK_PROCESS_CPUTIME_ID);
    began = moment = last = now(), until = began + nanoseconds;
}

static void stop(const char *why) {
    fprintf(stderr, "drive: %s (%s), with %d connections\n", why, errno ? strerror(errno) : "no error", count);
    exit(1);
}

static unsigned char *put(unsigned char *at, uint64_t value, int size) {
    for (int i = 0; i < size; i++) at[i] = (unsigned char)(value >> 8 * (size - 1 - i));
    return at + size;
}

static uint64_t number_at(const unsigned char *at, int size) {
    uint64_t value = 0;
    for (int i = 0; i < size; i++) value = value << 8 | at[i];
    return value;
}

static void flush(struct connection *c) {
    size_t at = 0;
    while (at < to_go) {
        ssize_t sent = send(c->stream, going + at, to_go - at, MSG_NOSIGNAL);
        if (sent < 0) stop("send");
        at += (size_t)sent;
    }
    to_go = 0;
}

// A command of Redis.
static void say_words(int words, const char *const *word) {
    int at = sprintf((char *)going + to_go, "*%d\r\n", words);
    for (int i = 0; i < words; i++) at += sprintf((char *)going + to_go + at, "$%zu\r\n%s\r\n", strlen(word[i]), word[i]);
    to_go += (size_t)at;
}

static void say_out(struct connection *c) {
    if (is_redis) {
        char number[24];
        sprintf(number, "%" PRIu64, job++);
        say_words(3, (const char *const[]){"RPUSH", "job", number});
        c->sent[c->puts++ % (uint64_t)flight] = moment;
        return;
    }
    unsigned char *at = going + to_go;
    at = put(at, 25, 4), at = put(at, OUT, 1), at = put(at, ++c->number, 8);
    memcpy(at, "\2\0\3job\1\1", 8);
    at = put(at + 8, job++, 8);
    to_go = (size_t)(at - going);
    c->sent[c->puts++ % (uint64_t)flight] = moment;
}

static int waits;

static void say_ask(struct connection *c) {
    if (is_redis && waits) return say_words(3, (const char *const[]){"BLPOP", "job", "0"});
    if (is_redis) return say_words(2, (const char *const[]){"LPOP", "job"});
    unsigned char *at = going + to_go;
    at = put(at, 18, 4), at = put(at, ASK, 1), at = put(at, ++c->ticket, 8), at = put(at, 1, 1);
    memcpy(at, "\2\0\3job\1\4", 8);
    to_go = (size_t)(at + 8 - going);
}

static void say_accept(struct connection *c, uint64_t id) {
    unsigned char *at = going + to_go;
    at = put(at, 25, 4), at = put(at, ACCEPT, 1), at = put(at, ++c->number, 8);
    at = put(at, c->ticket, 8), at = put(at, id, 8);
    to_go = (size_t)(at - going);
}

// How long the reply of Redis that begins here is, with its kind and no body; 0 if it has not come whole.
static size_t reply_of(const unsigned char *from, size_t size, int *kind) {
    const unsigned char *line = memchr(from, '\n', size);
    if (!line) return 0;
    size_t at = (size_t)(line - from) + 1, parts = from[0] == '*' ? 2 : from[0] == '$';
    *kind = from[0] == ':' ? STORED : parts ? TAKEN : 0;
    if (parts && from[1] == '-') stop("nothing was there to take");
    for (; parts; parts--) {
        if (from[0] == '*') {
            if (!(line = memchr(from + at, '\n', size - at))) return 0;
            at = (size_t)(line - from) + 1;
        }
        if (!(line = memchr(from + at, '\n', size - at))) return 0;
        at = (size_t)(line - from) + 1;
    }
    return at;
}

// Takes what came; calls `heard` for each whole frame, and then sends what it said.
static void hear(struct connection *c, void (*heard)(struct connection *, int, const unsigned char *)) {
    memcpy(came, c->rest, c->length);
    ssize_t size = recv(c->stream, came + c->length, ROOM, 0);
    if (size == 0) stop("the server ended the connection");
    if (size < 0) stop(errno == EAGAIN ? "no answer" : "recv");
    moment = now();
    size_t whole = c->length + (size_t)size, at = 0;
    for (int kind; is_redis && at < whole;) {
        size_t reply = reply_of(came + at, whole - at, &kind);
        if (!reply) break;
        heard(c, kind, came + at);
        at += reply;
    }
    while (!is_redis && whole - at >= 4) {
        size_t next = at + 4 + number_at(came + at, 4);
        if (next > whole) break;
        heard(c, came[at + 4], came + at + 5);
        at = next;
    }
    c->length = whole - at;
    if (c->length > REST) stop("a long frame");
    memcpy(c->rest, came + at, c->length);
    flush(c);
}

static int welcomed;

static void expect_welcome(struct connection *c, int kind, const unsigned char *body) {
    (void)c, (void)body;
    if (kind != WELCOME) stop("no welcome");
    welcomed = 1;
}

static void greet(int port) {
    struct connection *c = calloc(1, sizeof *c + (size_t)flight * sizeof *c->sent);
    struct sockaddr_in to = {
        .sin_family = AF_INET, .sin_port = htons((uint16_t)port), .sin_addr.s_addr = htonl(INADDR_LOOPBACK)};
    struct timeval patience = {.tv_sec = PATIENCE};
    struct linger at_once = {.l_onoff = 1};
    int one = 1;
    if (!c || count == MOST) stop("too many");
    c->stream = socket(AF_INET, SOCK_STREAM, 0);
    if (c->stream < 0) stop("socket");
    setsockopt(c->stream, SOL_SOCKET, SO_RCVTIMEO, &patience, sizeof patience);
    setsockopt(c->stream, SOL_SOCKET, SO_SNDTIMEO, &patience, sizeof patience);
    if (connect(c->stream, (struct sockaddr *)&to, sizeof to) < 0) stop("connect");
    setsockopt(c->stream, IPPROTO_TCP, TCP_NODELAY, &one, sizeof one);
    // So that thousands of ports are not kept for a minute after the end.
    setsockopt(c->stream, SOL_SOCKET, SO_LINGER, &at_once, sizeof at_once);
    if (!is_redis) {
        unsigned char *at = put(put(put(put(put(going, 7, 4), HELLO, 1), VERSION, 1), (uint64_t)count + 1, 4), 1, 1);
        to_go = (size_t)(at - going);
        flush(c);
        for (welcomed = 0; !welcomed;) hear(c, expect_welcome);
    }
    struct epoll_event event = {.events = EPOLLIN, .data.ptr = c};
    if (epoll_ctl(epoll, EPOLL_CTL_ADD, c->stream, &event) < 0) stop("epoll");
    all[count++] = c;
}

static void acknowledge(void) {
    if (moment - last > gap) gap = moment - last;
    last = moment;
    acknowledged++;
    if ((moment - began) / SLICE < SLICES) slices[(moment - began) / SLICE]++;
}

static void time_since(uint64_t sent) {
    if (timed == timed_room) {
        timed_room = timed_room ? 2 * timed_room : 1 << 16;
        times = realloc(times, timed_room * sizeof *times);
        if (!times) stop("memory");
    }
    times[timed++] = moment - sent;
}

static int rises(const void *a, const void *b) {
    uint64_t x = *(const uint64_t *)a, y = *(const uint64_t *)b;
    return (x > y) - (x < y);
}

// The least time that `share` in 1,000 of the times did not exceed.
static uint64_t time_of(size_t share) {
    return times[(timed * share + 999) / 1000 - 1];
}

// What the server has used.
struct use {
    uint64_t processor, voluntary, involuntary;
};

static uint64_t number_behind(const char *text, const char *words) {
    const char *at = strstr(text, words);
    if (!at) stop(words);
    return strtoull(at + strlen(words), NULL, 10);
}

// No thread of the server ends while its connections are there, so none takes its switches away.
static struct use use_of_server(void) {
    struct use use = {0};
    clockid_t clock;
    char path[600], text[8192];
    if (clock_getcpuclockid(server, &clock)) stop("the server's processor time");
    use.processor = nanoseconds_of(clock);
    snprintf(path, sizeof path, "/proc/%d/task", (int)server);
    DIR *tasks = opendir(path);
    if (!tasks) stop(path);
    for (struct dirent *task; (task = readdir(tasks));) {
        if (task->d_name[0] == '.') continue;
        snprintf(path, sizeof path, "/proc/%d/task/%s/status", (int)server, task->d_name);
        int file = open(path, O_RDONLY);
        ssize_t size = read(file, text, sizeof text - 1);
        if (size < 0) stop(path);
        close(file);
        text[size] = 0;
        use.voluntary += number_behind(text, "\nvoluntary_ctxt_switches:");
        use.involuntary += number_behind(text, "\nnonvoluntary_ctxt_switches:");
    }
    closedir(tasks);
    return use;
}

static void report(struct use before) {
    uint64_t own = nanoseconds_of(CLOCK_PROCESS_CPUTIME_ID) - began_processor, lasted = now() - began;
    struct use after = use_of_server();
    if (!timed || !acknowledged) stop("nothing was acknowledged");
    qsort(times, timed, sizeof *times, rises);
    printf("latency %" PRIu64 " %" PRIu64 " %" PRIu64 "\n", time_of(500), time_of(990), time_of(999));
    printf("gap %" PRIu64 "\n", gap);
    printf("server %" PRIu64 " %" PRIu64 " %" PRIu64 " %" PRIu64 "\n", acknowledged, after.processor - before.processor,
           after.voluntary - before.voluntary, after.involuntary - before.involuntary);
    printf("driver %" PRIu64 " %" PRIu64 "\n", own, lasted);
}

static void report_slices(uint64_t nanoseconds) {
    for (uint64_t i = 0; i < nanoseconds / SLICE && i < SLICES; i++) printf("slice %" PRIu64 "\n", slices[i]);
}

// Begins a put, or a put and its take, if it is not too late.
static void begin(struct connection *c) {
    if (moment < until) under_way++, say_out(c);
}

// The oldest that is under way over this connection is done.
static void end(struct connection *c) {
    under_way--;
    time_since(c->sent[c->answers++ % (uint64_t)flight]);
}

static void on_put(struct connection *c, int kind, const unsigned char *body) {
    (void)body;
    if (kind != STORED) stop("not stored");
    acknowledge(), end(c), begin(c);
}

static void on_pair(struct connection *c, int kind, const unsigned char *body) {
    switch (kind) {
        case STORED: acknowledge(), say_ask(c); break;
        case OFFER: say_accept(c, number_at(body + 8, 8)); break;
        case TAKEN: acknowledge(), end(c), begin(c); break;
        default: stop("neither stored, offered nor taken");
    }
}

static void turn(void (*heard)(struct connection *, int, const unsigned char *)) {
    struct epoll_event events[256];
    int ready = epoll_wait(epoll, events, 256, 1000 * PATIENCE);
    if (ready == 0 || (ready < 0 && errno != EINTR)) stop("no answer");
    for (int i = 0; i < ready; i++) hear(events[i].data.ptr, heard);
}

// The clients that do something are spread evenly among the connections.
static void load(int clients, void (*heard)(struct connection *, int, const unsigned char *)) {
    uint64_t nanoseconds = until;
    struct use before = use_of_server();
    start(nanoseconds);
    for (int i = 0; i < clients; i++) {
        struct connection *c = all[(int64_t)i * count / clients];
        moment = now();
        for (int j = 0; j < flight; j++) begin(c);
        flush(c);
    }
    while (under_way) turn(heard);
    report_slices(nanoseconds);
    report(before);
}

static uint64_t offered, taken;
static int is_stored;

static void on_wake(struct connection *c, int kind, const unsigned char *body) {
    switch (kind) {
        case STORED: acknowledge(), is_stored = 1; break;
        case OFFER: offered = moment, say_accept(c, number_at(body + 8, 8)); break;
        case TAKEN: acknowledge(), taken = moment, offered = offered ? offered : moment, say_ask(c); break;
        default: stop("neither stored, offered nor taken");
    }
}

static void wake(void) {
    waits = 1;
    struct use before = use_of_server();
    start(until);
    for (int i = 1; i < count; i++) say_ask(all[i]), flush(all[i]);
    while (now() < until) {
        usleep(2000);
        offered = taken = 0, is_stored = 0;
        uint64_t sent = moment = now();
        say_out(all[0]), flush(all[0]);
        while (!taken || !is_stored) turn(on_wake);
        moment = taken, time_since(sent);
        printf("wake %" PRIu64 " %" PRIu64 "\n", offered - sent, taken - sent);
    }
    report(before);
}

static void hold(int port, int words, char **word) {
    for (int i = 0; i < words; i++) {
        while (count < atoi(word[i])) greet(port);
        printf("held %d\n", count), fflush(stdout);
        if (getchar() == EOF) stop("no line");
    }
}

static void sync_loop(const char *path) {
    static char bytes[64];
    int file = open(path, O_CREAT | O_WRONLY | O_TRUNC | O_APPEND, 0600);
    uint64_t nanoseconds = until;
    start(nanoseconds);
    while (moment < until) {
        if (write(file, bytes, sizeof bytes) != sizeof bytes || fdatasync(file) < 0) stop(path);
        moment = now(), acknowledge();
    }
    report_slices(nanoseconds);
}

int main(int words, char **word) {
    const char *what = words < 4 ? "" : word[1];
    if (!strncmp(what, "redis-", 6)) is_redis = 1, what += 6;
    int is_put = !strcmp(what, "put"), is_pair = !strcmp(what, "pair"), is_wake = !strcmp(what, "wake");
    until = words < 4 ? 0 : (uint64_t)(atof(word[words - 1]) * 1e9);
    epoll = epoll_create1(0);
    if (!strcmp(what, "sync")) return sync_loop(word[2]), 0;
    if (!strcmp(what, "hold")) return hold(atoi(word[2]), words - 3, word + 3), 0;
    if (words != (is_put ? 8 : is_pair ? 7 : is_wake ? 6 : 0)) stop("see the first lines of drive.c");
    int port = atoi(word[2]), clients = atoi(word[4]), idle = is_wake ? 1 : atoi(word[5]);
    server = atoi(word[3]);
    if (is_put) flight = atoi(word[6]);
    if (clients < 1 || flight < 1 || flight > ROOM / 64) stop("see the first lines of drive.c");
    while (count < clients + idle) greet(port);
    if (is_wake) wake();
    else load(clients, is_put ? on_put : on_pair);
    return 0;
}
