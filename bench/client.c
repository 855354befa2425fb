/* Asks a server the same thing again and again, and tells how fast it was answered. `serve.py` and `durable.py` build and use it.

   usage: client [-c CONNECTIONS] [-t THREADS] [-n COUNT] [-s PID] [-f] SERVER WHAT HOW ADDRESS

   SERVER   tardis (frames of docs/FORMATS.md, as tardisd reads them) or redis (RESP)
   WHAT     transactions: begin, get, put, commit; or WATCH, GET, MULTI, SET, EXEC
            reads: a get within one transaction; or a GET
   HOW      turns: a connection sends each request once the reply to the one before came
            together: a connection sends a transaction's requests at once, and the next ones once its replies came
            pipelined: one connection sends all as fast as they are taken
   ADDRESS  unix:PATH, HOST:PORT, or pipes:FROM:TO with the numbers of two open files: replies come from the first, and
            requests go to the second, in frames that name actor 1

   With -f a session of a site follows its commits, so that a site which collects may pass over what was read before.

   Each connection has a key of its own, which has a value of 32 bytes before the clock starts. CONNECTIONS (1 where nothing is
   said) are divided among so many THREADS (1), and ask together for COUNT (1,000). Each byte of each reply is compared with what
   must come, but for the ids of states. One line tells, as NAME=VALUE: how many a second, the microseconds from a transaction's
   or read's first byte to its reply's last one, of 50 and of 99 in 100, and the microseconds of a processor that one took of the
   process PID, where it was named, and of this client; and how busy its threads were, in per cent: near 100 the client was
   the bound. */

#define _GNU_SOURCE
#include <errno.h>
#include <fcntl.h>
#include <netdb.h>
#include <netinet/tcp.h>
#include <poll.h>
#include <pthread.h>
#include <signal.h>
#include <stdarg.h>
#include <stdbool.h>
#include <stdint.h>
#include <stdio.h>
#include <stdlib.h>
#include <string.h>
#include <sys/epoll.h>
#include <sys/socket.h>
#include <sys/time.h>
#include <sys/un.h>
#include <time.h>
#include <unistd.h>

enum { KEY = 8, VALUE = 32, LONGEST = 512, STEPS = 8, PIECE = 65536, EVENTS = 256, PATIENCE = 20 };

/* Requests that are asked in this order, and their replies: where a step's end is, its replies are waited for. A byte of a reply
   is compared in the bits of its mask. */
struct script {
    unsigned char asks[LONGEST], wants[LONGEST], mask[LONGEST];
    size_t asked, wanted, steps, asks_end[STEPS], wants_end[STEPS];
};

struct connection {
    int from, to;
    struct script script;
    /* the step that was asked, the bytes of the script's replies that came, and when its first request was sent */
    size_t step, got;
    uint64_t begun;
};

/* A thread with its connections; each script that was answered leaves its nanoseconds. */
struct worker {
    pthread_t thread;
    pthread_barrier_t *start;
    struct connection *connections;
    size_t many, unasked, count, done;
    uint64_t *took, began, ended;
};

static struct {
    bool is_redis, is_reads, is_together, is_pipelined, names_actor, follows;
    const char *address;
    size_t connections, threads, count;
    pid_t server;
} told = {.connections = 1, .threads = 1, .count = 1000};

__attribute__((noreturn, format(printf, 1, 2))) static void stop(const char *form, ...) {
    va_list rest;
    va_start(rest, form);
    fputs("client: ", stderr);
    vfprintf(stderr, form, rest);
    fputc('\n', stderr);
    exit(1);
}

static void *room(size_t count, size_t size) {
    void *made = calloc(count ? count : 1, size);
    if (made == NULL) {
        stop("out of memory");
    }
    return made;
}

static uint64_t at(clockid_t clock) {
    struct timespec time;
    if (clock_gettime(clock, &time) != 0) {
        stop("the processor's time of process %d can't be read: %s", (int)told.server, strerror(errno));
    }
    return (uint64_t)time.tv_sec * 1000000000 + (uint64_t)time.tv_nsec;
}

/* Scripts. */

static void ask(struct script *script, const void *bytes, size_t count) {
    memcpy(script->asks + script->asked, bytes, count);
    script->asked += count;
}

static void want(struct script *script, const void *bytes, size_t count) {
    memcpy(script->wants + script->wanted, bytes, count);
    memset(script->mask + script->wanted, 0xff, count);
    script->wanted += count;
}

static void want_id(struct script *script) {
    script->wanted += 6;
}

static void end_step(struct script *script) {
    script->asks_end[script->steps] = script->asked;
    script->wants_end[script->steps] = script->wanted;
    script->steps += 1;
}

static void ask_frame(struct script *script, const void *request, size_t count, size_t more) {
    size_t length = count + more + (told.names_actor ? 2 : 0);
    ask(script, (unsigned char[]){0, 0, length >> 8 & 0xff, length & 0xff}, 4);
    ask(script, (unsigned char[]){0, 1}, told.names_actor ? 2 : 0);
    ask(script, request, count);
}

static void want_frame(struct script *script, size_t length, unsigned char code) {
    want(script, (unsigned char[]){0, 0, 0, (unsigned char)length, code}, 5);
}

static const char value[] = "vvvvvvvvvvvvvvvvvvvvvvvvvvvvvvvv";

static void tardis_open(struct script *script) {
    ask_frame(script, told.follows ? "\1\1" : "\1\0", 2, 0);
    want_frame(script, 7, 1);
    want_id(script);
    end_step(script);
}

static void tardis_begin(struct script *script) {
    ask_frame(script, "\2\0", 2, 0);
    want_frame(script, 7, 2);
    want_id(script);
    end_step(script);
}

static void tardis_get(struct script *script, const char *key) {
    ask_frame(script, (unsigned char[]){3, KEY}, 2, KEY);
    ask(script, key, KEY);
    want_frame(script, 1 + 6 + 2 + VALUE, 4);
    want_id(script);
    want(script, (unsigned char[]){0, VALUE}, 2);
    want(script, value, VALUE);
    end_step(script);
}

static void tardis_put(struct script *script, const char *key) {
    ask_frame(script, (unsigned char[]){4, KEY}, 2, KEY + 2 + VALUE);
    ask(script, key, KEY);
    ask(script, (unsigned char[]){0, VALUE}, 2);
    ask(script, value, VALUE);
    want_frame(script, 1, 7);
    end_step(script);
}

/* Serializable; the new state has one parent. */
static void tardis_commit(struct script *script) {
    ask_frame(script, "\6\1\0\0", 4, 0);
    want_frame(script, 14, 8);
    want_id(script);
    want(script, "\1", 1);
    want_id(script);
    end_step(script);
}

static void redis(struct script *script, const char *reply, size_t words, ...) {
    char text[LONGEST];
    va_list rest;
    va_start(rest, words);
    ask(script, text, (size_t)sprintf(text, "*%zu\r\n", words));
    for (size_t word = 0; word < words; word++) {
        const char *it = va_arg(rest, const char *);
        ask(script, text, (size_t)sprintf(text, "$%zu\r\n%s\r\n", strlen(it), it));
    }
    va_end(rest);
    want(script, reply, strlen(reply));
    end_step(script);
}

static void redis_get(struct script *script, const char *key) {
    char reply[LONGEST];
    sprintf(reply, "$%d\r\n%s\r\n", VALUE, value);
    redis(script, reply, 2, "GET", key);
}

/* What comes before the clock starts: a session, and the key's value. */
static void add_first(struct script *script, const char *key) {
    if (told.is_redis) {
        redis(script, "+OK\r\n", 3, "SET", key, value);
        return;
    }
    tardis_open(script);
    tardis_begin(script);
    tardis_put(script, key);
    tardis_commit(script);
    if (told.is_reads) {
        tardis_begin(script);
    }
}

static void add_read(struct script *script, const char *key) {
    if (told.is_redis) {
        redis_get(script, key);
    } else {
        tardis_get(script, key);
    }
}

static void add_transaction(struct script *script, const char *key) {
    if (told.is_redis) {
        redis(script, "+OK\r\n", 2, "WATCH", key);
        redis_get(script, key);
        redis(script, "+OK\r\n", 1, "MULTI");
        redis(script, "+QUEUED\r\n", 3, "SET", key, value);
        redis(script, "*1\r\n+OK\r\n", 1, "EXEC");
    } else {
        tardis_begin(script);
        tardis_get(script, key);
        tardis_put(script, key);
        tardis_commit(script);
    }
}

/* Makes one step of them all. */
static void join_steps(struct script *script) {
    script->steps = 0;
    end_step(script);
}

/* Whether these bytes are what must come at this place of the replies. */
static bool is_wanted(const struct script *script, size_t place, const unsigned char *bytes, size_t count) {
    uint64_t other = 0;
    while (count >= 8) {
        uint64_t came, wants, mask;
        memcpy(&came, bytes, 8);
        memcpy(&wants, script->wants + place, 8);
        memcpy(&mask, script->mask + place, 8);
        other |= (came ^ wants) & mask;
        bytes += 8, place += 8, count -= 8;
    }
    for (; count > 0; bytes++, place++, count--) {
        other |= (*bytes ^ script->wants[place]) & script->mask[place];
    }
    return other == 0;
}

/* Connections. */

static void send_whole(int to, const unsigned char *bytes, size_t count) {
    while (count > 0) {
        ssize_t sent = write(to, bytes, count);
        if (sent >= 0) {
            bytes += sent, count -= (size_t)sent;
        } else if (errno == EAGAIN) {
            poll(&(struct pollfd){.fd = to, .events = POLLOUT}, 1, -1);
        } else {
            stop("a request couldn't be sent: %s", strerror(errno));
        }
    }
}

__attribute__((noreturn)) static void stop_waiting(void) {
    stop("no answer for %d seconds", PATIENCE);
}

/* How many bytes were read, at least one. It is called where there are some, or where the socket itself waits for them. */
static size_t receive(int from, unsigned char *bytes, size_t count) {
    ssize_t came = read(from, bytes, count);
    if (came == 0) {
        stop("the server ended the connection");
    }
    if (came < 0 && errno == EAGAIN) {
        stop_waiting();
    }
    if (came < 0) {
        stop("a reply couldn't be read: %s", strerror(errno));
    }
    return (size_t)came;
}

static void send_step(struct connection *it) {
    size_t begin = it->step == 0 ? 0 : it->script.asks_end[it->step - 1];
    send_whole(it->to, it->script.asks + begin, it->script.asks_end[it->step] - begin);
}

/* Takes what came of the replies to the step that was asked: true once they are whole. */
static bool take_step(struct connection *it) {
    unsigned char bytes[LONGEST];
    size_t came = receive(it->from, bytes, it->script.wants_end[it->step] - it->got);
    if (!is_wanted(&it->script, it->got, bytes, came)) {
        stop("another reply than the one that must come, to request %zu", it->step);
    }
    it->got += came;
    return it->got == it->script.wants_end[it->step];
}

static int socket_to_path(const char *path) {
    struct sockaddr_un place = {.sun_family = AF_UNIX};
    if (strlen(path) >= sizeof place.sun_path) {
        stop("the socket's path is too long: %s", path);
    }
    strcpy(place.sun_path, path);
    int made = socket(AF_UNIX, SOCK_STREAM, 0);
    if (made >= 0 && connect(made, (struct sockaddr *)&place, sizeof place) == 0) {
        return made;
    }
    close(made);
    return -1;
}

static int socket_to_host(const char *address) {
    char host[LONGEST], *colon;
    snprintf(host, sizeof host, "%s", address[0] == '[' ? address + 1 : address);
    colon = strrchr(host, ':');
    if (colon == NULL || colon == host) {
        stop("no address: %s", address);
    }
    *colon = 0;
    if (colon[-1] == ']') {
        colon[-1] = 0;
    }
    struct addrinfo *found, hints = {.ai_socktype = SOCK_STREAM};
    if (getaddrinfo(host, colon + 1, &hints, &found) != 0) {
        stop("unknown host: %s", address);
    }
    int made = socket(found->ai_family, SOCK_STREAM, 0);
    if (made >= 0 && connect(made, found->ai_addr, found->ai_addrlen) != 0) {
        close(made);
        made = -1;
    }
    freeaddrinfo(found);
    if (made >= 0) {
        setsockopt(made, IPPROTO_TCP, TCP_NODELAY, &(int){1}, sizeof(int));
    }
    return made;
}

/* A server that has just been started is waited for. */
static void connect_to(struct connection *it) {
    if (sscanf(told.address, "pipes:%d:%d", &it->from, &it->to) == 2) {
        return;
    }
    uint64_t end = at(CLOCK_MONOTONIC) + (uint64_t)PATIENCE * 1000000000;
    bool is_path = strncmp(told.address, "unix:", 5) == 0;
    while ((it->from = is_path ? socket_to_path(told.address + 5) : socket_to_host(told.address)) < 0) {
        if (at(CLOCK_MONOTONIC) > end) {
            stop("nobody listens at %s", told.address);
        }
        usleep(10000);
    }
    it->to = it->from;
    setsockopt(it->from, SOL_SOCKET, SO_RCVTIMEO, &(struct timeval){.tv_sec = PATIENCE}, sizeof(struct timeval));
}

static void open_connection(struct connection *it, size_t number) {
    char key[LONGEST];
    snprintf(key, sizeof key, "key%05zu", number);
    connect_to(it);
    add_first(&it->script, key);
    for (; it->step < it->script.steps; it->step++) {
        send_step(it);
        while (!take_step(it)) {
        }
    }
    memset(&it->script, 0, sizeof it->script);
    it->step = it->got = 0;
    if (told.is_reads) {
        add_read(&it->script, key);
    } else {
        add_transaction(&it->script, key);
    }
    if (told.is_together) {
        join_steps(&it->script);
    }
}

static void let_go(struct connection *it) {
    if (fcntl(it->from, F_SETFL, O_NONBLOCK) != 0 || fcntl(it->to, F_SETFL, O_NONBLOCK) != 0) {
        stop("a connection can't be set not to block: %s", strerror(errno));
    }
}

/* By turns. */

static void begin_script(struct worker *worker, struct connection *it, uint64_t now) {
    if (worker->unasked > 0) {
        worker->unasked -= 1;
        it->step = it->got = 0;
        it->begun = now;
        send_step(it);
    }
}

static void go_on(struct worker *worker, struct connection *it) {
    if (!take_step(it)) {
        return;
    }
    it->step += 1;
    if (it->step < it->script.steps) {
        send_step(it);
        return;
    }
    uint64_t now = at(CLOCK_MONOTONIC);
    worker->took[worker->done++] = now - it->begun;
    begin_script(worker, it, now);
}

/* A connection that is alone waits in its read, which is one call fewer. */
static void alone(struct worker *worker) {
    begin_script(worker, worker->connections, worker->began);
    while (worker->done < worker->count) {
        go_on(worker, worker->connections);
    }
}

static void by_turns(struct worker *worker) {
    struct epoll_event events[EVENTS];
    int poll = epoll_create1(0);
    for (size_t place = 0; place < worker->many; place++) {
        struct connection *it = worker->connections + place;
        let_go(it);
        if (epoll_ctl(poll, EPOLL_CTL_ADD, it->from, &(struct epoll_event){.events = EPOLLIN, .data.ptr = it}) != 0) {
            stop("a connection can't be waited for: %s", strerror(errno));
        }
        begin_script(worker, it, at(CLOCK_MONOTONIC));
    }
    while (worker->done < worker->count) {
        int ready = epoll_wait(poll, events, EVENTS, PATIENCE * 1000);
        if (ready == 0) {
            stop_waiting();
        }
        for (int place = 0; place < ready; place++) {
            go_on(worker, events[place].data.ptr);
        }
    }
    close(poll);
}

/* Pipelined. */

/* What one connection sends and takes when it doesn't wait: bytes so far, and requests enough for one piece. */
struct stream {
    size_t sent, came;
    unsigned char *piece;
};

static void send_piece(struct worker *worker, struct stream *stream) {
    const struct connection *it = worker->connections;
    size_t asked = it->script.asked, left = worker->count * asked - stream->sent;
    uint64_t now = at(CLOCK_MONOTONIC);
    ssize_t sent = write(it->to, stream->piece + stream->sent % asked, left < PIECE ? left : PIECE);
    if (sent < 0 && errno != EAGAIN) {
        stop("a request couldn't be sent: %s", strerror(errno));
    }
    stream->sent += sent < 0 ? 0 : (size_t)sent;
    for (; worker->unasked > 0 && (worker->count - worker->unasked) * asked < stream->sent; worker->unasked--) {
        worker->took[worker->count - worker->unasked] = now;
    }
}

static void take_piece(struct worker *worker, struct stream *stream) {
    static unsigned char bytes[4 * PIECE];
    const struct connection *it = worker->connections;
    size_t wanted = it->script.wanted, came = receive(it->from, bytes, sizeof bytes);
    for (size_t place = 0; place < came;) {
        size_t in = stream->came % wanted, count = came - place < wanted - in ? came - place : wanted - in;
        if (stream->came == worker->count * wanted || !is_wanted(&it->script, in, bytes + place, count)) {
            stop("another reply than the one that must come, in number %zu", stream->came / wanted);
        }
        place += count, stream->came += count;
    }
    uint64_t now = at(CLOCK_MONOTONIC);
    for (; worker->done < stream->came / wanted; worker->done++) {
        worker->took[worker->done] = now - worker->took[worker->done];
    }
}

static void pipelined(struct worker *worker) {
    struct connection *it = worker->connections;
    size_t asked = it->script.asked;
    struct stream stream = {.piece = room(PIECE + 2 * asked, 1)};
    for (size_t place = 0; place < PIECE + asked; place += asked) {
        memcpy(stream.piece + place, it->script.asks, asked);
    }
    let_go(it);
    while (worker->done < worker->count) {
        struct pollfd ends[] = {{.fd = it->from, .events = POLLIN}, {.fd = worker->count * asked > stream.sent ? it->to : -1, .events = POLLOUT}};
        if (poll(ends, 2, PATIENCE * 1000) == 0) {
            stop_waiting();
        }
        if (ends[1].revents != 0) {
            send_piece(worker, &stream);
        }
        if (ends[0].revents != 0) {
            take_piece(worker, &stream);
        }
    }
    free(stream.piece);
}

/* The whole. */

static void *work(void *given) {
    struct worker *worker = given;
    pthread_barrier_wait(worker->start);
    worker->began = at(CLOCK_MONOTONIC);
    if (told.is_pipelined) {
        pipelined(worker);
    } else if (worker->many == 1) {
        alone(worker);
    } else {
        by_turns(worker);
    }
    worker->ended = at(CLOCK_MONOTONIC);
    return NULL;
}

/* The i-th share of a number that is divided among the threads begins here. */
static size_t share(size_t number, size_t i) {
    return number * i / told.threads;
}

static void start(struct worker *workers, struct connection *connections, uint64_t *took, pthread_barrier_t *barrier) {
    pthread_barrier_init(barrier, NULL, (unsigned)told.threads + 1);
    for (size_t i = 0; i < told.threads; i++) {
        size_t from = share(told.connections, i), first = share(told.count, i), count = share(told.count, i + 1) - first;
        workers[i] = (struct worker){.start = barrier, .connections = connections + from, .many = share(told.connections, i + 1) - from,
                                     .unasked = count, .count = count, .took = took + first};
        if (pthread_create(&workers[i].thread, NULL, work, workers + i) != 0) {
            stop("a thread couldn't be started");
        }
    }
}

static int compare(const void *left, const void *right) {
    uint64_t one = *(const uint64_t *)left, other = *(const uint64_t *)right;
    return (one > other) - (one < other);
}

static void tell(const struct worker *workers, uint64_t *took, uint64_t server, uint64_t client) {
    uint64_t began = workers[0].began, ended = workers[0].ended;
    for (size_t i = 1; i < told.threads; i++) {
        began = workers[i].began < began ? workers[i].began : began;
        ended = workers[i].ended > ended ? workers[i].ended : ended;
    }
    double count = (double)told.count, spent = (double)(ended - began);
    qsort(took, told.count, sizeof *took, compare);
    printf("rate=%.0f p50=%.1f p99=%.1f ", count / spent * 1e9, (double)took[told.count / 2] / 1e3, (double)took[told.count * 99 / 100] / 1e3);
    if (told.server != 0) {
        printf("server=%.3f ", (double)server / count / 1e3);
    }
    printf("client=%.3f busy=%.0f\n", (double)client / count / 1e3, 100 * (double)client / spent / (double)told.threads);
}

static size_t number(const char *text, size_t least, size_t most) {
    char *end;
    unsigned long it = strtoul(text, &end, 10);
    if (*text == 0 || *end != 0 || it < least || it > most) {
        stop("no number from %zu to %zu: %s", least, most, text);
    }
    return it;
}

static size_t choice(const char *text, const char *const *among) {
    for (size_t i = 0; among[i] != NULL; i++) {
        if (strcmp(text, among[i]) == 0) {
            return i;
        }
    }
    stop("unknown word: %s", text);
}

static void read_words(int count, char **words) {
    int option;
    while ((option = getopt(count, words, "c:t:n:s:f")) != -1) {
        switch (option) {
        case 'c': told.connections = number(optarg, 1, 100000); break;
        case 't': told.threads = number(optarg, 1, 64); break;
        case 'n': told.count = number(optarg, 1, 100000000); break;
        case 'f': told.follows = true; break;
        case 's': told.server = (pid_t)number(optarg, 1, INT32_MAX); break;
        default: exit(1);
        }
    }
    if (count - optind != 4) {
        stop("usage: client [-c CONNECTIONS] [-t THREADS] [-n COUNT] [-s PID] [-f] tardis|redis transactions|reads turns|together|pipelined ADDRESS");
    }
    told.is_redis = choice(words[optind], (const char *const[]){"tardis", "redis", NULL}) == 1;
    told.is_reads = choice(words[optind + 1], (const char *const[]){"transactions", "reads", NULL}) == 1;
    size_t how = choice(words[optind + 2], (const char *const[]){"turns", "together", "pipelined", NULL});
    told.is_together = how == 1;
    told.is_pipelined = how == 2;
    told.address = words[optind + 3];
    told.names_actor = strncmp(told.address, "pipes:", 6) == 0;
    if (told.threads > told.connections || told.threads > told.count || ((told.is_pipelined || told.names_actor) && told.connections > 1)) {
        stop("no more threads than connections, and one connection where it is pipelined or of pipes");
    }
}

int main(int count, char **words) {
    signal(SIGPIPE, SIG_IGN);
    read_words(count, words);
    clockid_t clock = CLOCK_PROCESS_CPUTIME_ID;
    if (told.server != 0 && clock_getcpuclockid(told.server, &clock) != 0) {
        stop("there is no process %d", (int)told.server);
    }
    struct connection *connections = room(told.connections, sizeof *connections);
    for (size_t i = 0; i < told.connections; i++) {
        open_connection(connections + i, i);
    }
    uint64_t *took = room(told.count, sizeof *took);
    memset(took, 1, told.count * sizeof *took);
    struct worker *workers = room(told.threads, sizeof *workers);
    pthread_barrier_t barrier;
    start(workers, connections, took, &barrier);
    uint64_t server = at(clock), client = at(CLOCK_PROCESS_CPUTIME_ID);
    pthread_barrier_wait(&barrier);
    for (size_t i = 0; i < told.threads; i++) {
        pthread_join(workers[i].thread, NULL);
    }
    tell(workers, took, at(clock) - server, at(CLOCK_PROCESS_CPUTIME_ID) - client);
    return 0;
}
