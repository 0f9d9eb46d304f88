// Clients of a mesh of Gnutella v0.4 routers, which send, answer, and look for what comes twice: clients COUNT RATE REMEMBERED PORT..
//
// Client K calls the router at the Kth of the ports, which come round, and calls again where its connection ends. All together send
// RATE Pings and Queries a second, with TTL 7. Each Query is answered by one of the others with a Query Hit, and every eighth of these
// by a Push. Beside that each client sends a Ping with TTL 1 twice a second, which its router alone answers. An ID has its descriptor's
// number, so that a client knows what it has sent and had: it had one twice where fewer than REMEMBERED others were sent by all, and
// fewer came to it, since. For each line feed of standard input one line is printed: names, each with a count from the start; the
// longest that a client was silent, had no answer, in milliseconds; and the microseconds to the answers since the line before: half of
// them, 99 of 100, the longest. The end of standard input ends it.
#define _GNU_SOURCE
#include <arpa/inet.h>
#include <errno.h>
#include <netinet/in.h>
#include <netinet/tcp.h>
#include <stdint.h>
#include <stdio.h>
#include <stdlib.h>
#include <string.h>
#include <sys/epoll.h>
#include <sys/socket.h>
#include <time.h>
#include <unistd.h>

enum { MOST = 256, PORTS = 256, HEADER = 23, IN = 1 << 17, OUT = 1 << 16, SLOTS = 1 << 16, TIMES = 1 << 20 };
enum { NUMBER_AT = 8, SENDER_AT = 12, USE_AT = 13, MARK_AT = 14, CALL_AT = 15, KIND_AT = 16, TTL_AT = 17, LENGTH_AT = 19 };
enum { PING = 0, PONG = 1, PUSH = 0x40, QUERY = 0x80, HIT = 0x81, MARK = 0xbb, FLOOD = 1, ASKED = 2 };
enum { SERVENT = 16, HIT_LENGTH = 41, PUSH_LENGTH = 26, PUSH_EVERY = 8, INPUT = MOST, SAID = 100 };

static const uint64_t SECOND = 1000000000ull, AGAIN = 100000000ull, BETWEEN = 500000000ull, SILENCE = 10000000000ull, MILLI = 1000000ull;
static const char REQUEST[] = "GNUTELLA CONNECT/0.4\n\n", CONSENT[] = "GNUTELLA OK\n\n", WORDS[] = "\0\0soak";

struct slot {
    uint32_t number;
    long at;  // how many had come by then, and 1; 0: nothing
};

struct client {
    int fd;  // -1: it is to call
    int is_joined, waits;  // whether it had its consent, and waits until it can write
    int have, queued;  // bytes in `in` and in `out`
    unsigned char call;
    long got;
    uint64_t calls_at, asks_at, answered_at;
    struct slot slots[SLOTS];
    unsigned char in[IN], out[OUT];
};

static struct client *clients;
static int count, ports[PORTS], poller, port_count;
static double rate;
static uint32_t number, remembered;
static long sent, unsent, got, twice, again, asked, answered, pongs, queries, hits, pushes, pushed, joined, gone, refused, broken;
static uint32_t times[TIMES];
static long timed;
static uint64_t begun, longest;

static uint64_t now(void) {
    struct timespec time;
    clock_gettime(CLOCK_MONOTONIC, &time);
    return time.tv_sec * SECOND + time.tv_nsec;
}

static void fail(const char *what) {
    perror(what);
    exit(1);
}

static void watch(int how, int fd, int who, uint32_t events) {
    struct epoll_event event = {.events = events, .data.u32 = who};
    if (epoll_ctl(poller, how, fd, &event)) fail("epoll_ctl");
}

// The connection has ended, or there was none: it calls again soon.
static void leave(int who) {
    struct client *it = &clients[who];
    gone += it->is_joined;
    close(it->fd);
    it->fd = -1;
    it->is_joined = 0;
    it->calls_at = now() + AGAIN;
}

static void write_queued(int who) {
    struct client *it = &clients[who];
    int at = 0, waits;
    while (at < it->queued) {
        ssize_t n = send(it->fd, it->out + at, it->queued - at, MSG_NOSIGNAL);
        // a connection that has ended is found as it is read
        if (n < 0 && errno != EAGAIN && errno != ENOTCONN) at = it->queued;
        if (n <= 0) break;
        at += n;
    }
    memmove(it->out, it->out + at, it->queued - at);
    it->queued -= at;
    waits = it->queued > 0;
    if (waits != it->waits) watch(EPOLL_CTL_MOD, it->fd, who, EPOLLIN | (waits ? EPOLLOUT : 0));
    it->waits = waits;
}

static void call(int who) {
    struct client *it = &clients[who];
    struct sockaddr_in at = {.sin_family = AF_INET, .sin_port = htons(ports[who % port_count])};
    int one = 1;
    at.sin_addr.s_addr = htonl(INADDR_LOOPBACK);
    it->fd = socket(AF_INET, SOCK_STREAM | SOCK_NONBLOCK, 0);
    if (it->fd < 0) fail("socket");
    setsockopt(it->fd, IPPROTO_TCP, TCP_NODELAY, &one, sizeof one);
    if (connect(it->fd, (struct sockaddr *)&at, sizeof at) && errno != EINPROGRESS) {
        leave(who);
        return;
    }
    it->have = it->got = 0;
    it->call++;
    memset(it->slots, 0, sizeof it->slots);
    it->queued = sizeof REQUEST - 1;
    memcpy(it->out, REQUEST, it->queued);
    it->waits = 1;
    watch(EPOLL_CTL_ADD, it->fd, who, EPOLLIN | EPOLLOUT);
}

static int queue(int who, const unsigned char *head, const void *payload, int length) {
    struct client *it = &clients[who];
    unsigned char *at = it->out + it->queued;
    if (!it->is_joined || it->queued + HEADER + length > OUT) {
        unsent++;
        return 0;
    }
    memcpy(at, head, LENGTH_AT);
    memcpy(at + LENGTH_AT, &(uint32_t){length}, sizeof(uint32_t));
    memcpy(at + HEADER, payload, length);
    it->queued += HEADER + length;
    return 1;
}

// A descriptor with a new ID, which says when it was sent, its number, by whom, in which of its calls, and what for.
static int queue_new(int who, int kind, int ttl, int use, const void *payload, int length) {
    struct client *it = &clients[who];
    unsigned char head[LENGTH_AT] = {0};
    uint64_t time = now();
    memcpy(head, &time, sizeof time);
    memcpy(head + NUMBER_AT, &number, sizeof number);
    head[SENDER_AT] = who;
    head[USE_AT] = use;
    head[MARK_AT] = MARK;
    head[CALL_AT] = it->call;
    head[KIND_AT] = kind;
    head[TTL_AT] = ttl;
    if (!queue(who, head, payload, length)) return 0;
    it->slots[number % SLOTS] = (struct slot){number, it->got + 1};
    number++;
    return 1;
}

static void send_floods(uint64_t time) {
    static uint64_t since;
    static long turn, made;
    if (time - begun - since > SECOND / 2) {
        // what wasn't sent in its time isn't sent in a heap
        long due = (time - begun) * rate / SECOND;
        unsent += due - made;
        made = due;
    }
    since = time - begun;
    for (long due = since * rate / SECOND; made < due; made++) {
        int who = turn / 2 % count, is_query = turn % 2;
        turn++;
        if (queue_new(who, is_query ? QUERY : PING, 7, FLOOD, WORDS, is_query ? sizeof WORDS : 0)) {
            sent++;
            queries += is_query;
            write_queued(who);
        }
    }
}

static void call_and_ask(uint64_t time) {
    for (int who = 0; who < count; who++) {
        struct client *it = &clients[who];
        if (it->fd < 0 && time >= it->calls_at) call(who);
        if (!it->is_joined || time < it->asks_at) continue;
        it->asks_at = time + BETWEEN;
        if (queue_new(who, PING, 1, ASKED, "", 0)) asked++;
        write_queued(who);
    }
}

static void servent_of(int who, unsigned char *servent) {
    memset(servent, MARK, SERVENT);
    servent[0] = who;
}

// Who answers a Query: another than its sender, each as often.
static int answerer(const unsigned char *query, uint32_t its) {
    return (query[SENDER_AT] + 1 + (count > 1 ? its % (count - 1) : 0)) % count;
}

// How long a client had no answer.
static void hear_answer(int who, uint64_t time) {
    uint64_t since = time - clients[who].answered_at;
    if (since > longest) longest = since;
    if (since > SILENCE) fprintf(stderr, "client %d had no answer for %.1f seconds\n", who, (double)since / SECOND);
    clients[who].answered_at = time;
    answered++;
}

// Whether a Ping or Query is new to a client, as far as its router has to know.
static void look(int who, const unsigned char *descriptor) {
    struct client *it = &clients[who];
    uint32_t its;
    memcpy(&its, descriptor + NUMBER_AT, sizeof its);
    struct slot *slot = &it->slots[its % SLOTS];
    it->got++;
    got++;
    if (slot->at && slot->number == its) {
        int is_known = number - its < remembered && it->got - slot->at < remembered;
        if (is_known && twice < SAID) {
            fprintf(stderr, "client %d had %u of client %d, kind %02x, twice: %u were sent since, and %ld came\n", who, its,
                    descriptor[SENDER_AT], descriptor[KIND_AT], number - its, it->got - slot->at);
        }
        twice += is_known;
        again += !is_known;
    }
    if (!slot->at || (int32_t)(its - slot->number) >= 0) *slot = (struct slot){its, it->got + 1};
}

static void answer(int who, const unsigned char *query) {
    unsigned char head[LENGTH_AT], hit[HIT_LENGTH] = {1, 0xca, 0x18, 127, 0, 0, 1, 5, 0, 0, 0, 1, 0, 0, 0, 99, 0, 0, 0, 's', 'o', 'n', 'g'};
    memcpy(head, query, LENGTH_AT);
    head[KIND_AT] = HIT;
    head[TTL_AT] = 7;
    head[TTL_AT + 1] = 0;
    servent_of(who, hit + HIT_LENGTH - SERVENT);
    queue(who, head, hit, HIT_LENGTH);
    write_queued(who);
}

static void push(int who, const unsigned char *hit, uint32_t length) {
    unsigned char its[PUSH_LENGTH] = {0};
    memcpy(its, hit + HEADER + length - SERVENT, SERVENT);
    memcpy(its + SERVENT, (unsigned char[]){1, 0, 0, 0, 127, 0, 0, 1, 0xca, 0x18}, PUSH_LENGTH - SERVENT);
    pushes += queue_new(who, PUSH, 7, FLOOD, its, PUSH_LENGTH);
    write_queued(who);
}

static void take(int who, const unsigned char *descriptor, uint32_t length, uint64_t time) {
    struct client *it = &clients[who];
    int kind = descriptor[KIND_AT], is_own = descriptor[SENDER_AT] == who && descriptor[CALL_AT] == it->call;
    uint64_t since;
    uint32_t its;
    // the routers' own Pings have other IDs
    if (descriptor[MARK_AT] != MARK) return;
    if (kind == PING || kind == QUERY) look(who, descriptor);
    memcpy(&its, descriptor + NUMBER_AT, sizeof its);
    if (kind == QUERY && answerer(descriptor, its) == who) answer(who, descriptor);
    if (kind == PUSH) pushed++;
    if (kind == PONG && descriptor[USE_AT] == FLOOD) pongs++;
    if (kind == HIT && ++hits % PUSH_EVERY == 0 && length >= SERVENT) push(who, descriptor, length);
    if (kind == PONG && descriptor[USE_AT] == ASKED && is_own) {
        memcpy(&since, descriptor, sizeof since);
        if (timed < TIMES) times[timed++] = (time - since) / 1000;
        hear_answer(who, time);
    }
}

// Takes what has come of a consent, and whether it is whole; anything else ends the connection.
static int is_let_in(int who) {
    struct client *it = &clients[who];
    int want = sizeof CONSENT - 1;
    if (it->have < want) return 0;
    if (memcmp(it->in, CONSENT, want)) {
        broken++;
        leave(who);
        return 0;
    }
    memmove(it->in, it->in + want, it->have - want);
    it->have -= want;
    it->is_joined = 1;
    joined++;
    return 1;
}

static void hear(int who) {
    struct client *it = &clients[who];
    ssize_t n = recv(it->fd, it->in + it->have, IN - it->have, 0);
    int at = 0;
    uint64_t time = now();
    if (n < 0 && errno == EAGAIN) return;
    if (n <= 0) {
        refused += !it->is_joined && !(n < 0 && errno == ECONNREFUSED);
        leave(who);
        return;
    }
    it->have += n;
    if (!it->is_joined && !is_let_in(who)) return;
    while (it->have - at >= HEADER) {
        uint32_t length;
        memcpy(&length, it->in + at + LENGTH_AT, sizeof length);
        if (length > IN / 2) {
            broken++;
            leave(who);
            return;
        }
        if ((uint32_t)(it->have - at) < HEADER + length) break;
        take(who, it->in + at, length, time);
        at += HEADER + length;
    }
    memmove(it->in, it->in + at, it->have - at);
    it->have -= at;
}

static int by_size(const void *one, const void *other) {
    uint32_t a = *(const uint32_t *)one, b = *(const uint32_t *)other;
    return (a > b) - (a < b);
}

static void print_counts(void) {
    int away = 0;
    uint64_t silent = longest;
    long last = timed ? timed - 1 : 0;
    uint64_t time = now();
    for (int who = 0; who < count; who++) {
        if (time - clients[who].answered_at > silent) silent = time - clients[who].answered_at;
        away += !clients[who].is_joined;
    }
    if (!timed) times[0] = 0;
    qsort(times, timed, sizeof *times, by_size);
    printf("sent %ld unsent %ld got %ld twice %ld again %ld asked %ld answered %ld pongs %ld queries %ld hits %ld ", sent, unsent, got,
           twice, again, asked, answered, pongs, queries, hits);
    printf("pushes %ld pushed %ld joined %ld gone %ld refused %ld broken %ld silent %lu away %d p50 %u p99 %u most %u\n", pushes, pushed,
           joined, gone, refused, broken, silent / MILLI, away, times[last / 2], times[last * 99 / 100], times[last]);
    fflush(stdout);
    timed = 0;
}

static void read_input(void) {
    char text[64];
    ssize_t n = read(STDIN_FILENO, text, sizeof text);
    if (n <= 0) exit(0);
    for (ssize_t at = 0; at < n; at++) {
        if (text[at] == '\n') print_counts();
    }
}

static void start(int words, char **word) {
    if (words < 5 || words - 4 > PORTS || atoi(word[1]) < 1 || atoi(word[1]) > MOST || atoi(word[3]) > SLOTS) {
        fprintf(stderr, "usage: clients COUNT RATE REMEMBERED PORT..\n");
        exit(2);
    }
    count = atoi(word[1]);
    rate = atof(word[2]);
    remembered = atoi(word[3]);
    port_count = words - 4;
    for (int k = 0; k < port_count; k++) ports[k] = atoi(word[4 + k]);
    clients = calloc(count, sizeof *clients);
    poller = epoll_create1(0);
    if (!clients || poller < 0) fail("start");
    begun = now();
    for (int who = 0; who < count; who++) {
        clients[who].fd = -1;
        clients[who].answered_at = begun;
        // they don't ask all at once
        clients[who].asks_at = begun + BETWEEN * who / count;
    }
    watch(EPOLL_CTL_ADD, STDIN_FILENO, INPUT, EPOLLIN);
}

int main(int words, char **word) {
    start(words, word);
    for (;;) {
        struct epoll_event events[MOST];
        uint64_t time = now();
        call_and_ask(time);
        send_floods(time);
        int ready = epoll_wait(poller, events, MOST, 1);
        for (int k = 0; k < ready; k++) {
            int who = events[k].data.u32;
            if (who == INPUT) {
                read_input();
                continue;
            }
            // a call that failed is told by the first that asks
            if (events[k].events & (EPOLLIN | EPOLLHUP | EPOLLERR)) hear(who);
            if (events[k].events & EPOLLOUT && clients[who].fd >= 0) write_queued(who);
        }
    }
}
