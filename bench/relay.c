// A relay of Gnutella v0.4 in one thread, to measure gn beside: relay PORT
//
// It accepts greetings, passes each new Ping and Query on to all other neighbours with one hop more, answers a Ping by its own
// Pong, and remembers IDs by a hash. It checks no payload, routes no answer back, keeps no history, and ends once all have gone.
#define _GNU_SOURCE
#include <arpa/inet.h>
#include <errno.h>
#include <netinet/in.h>
#include <netinet/tcp.h>
#include <stdint.h>
#include <stdio.h>
#include <stdlib.h>
#include <string.h>
#include <sys/epoll.h>
#include <sys/socket.h>
#include <unistd.h>

enum { NEIGHBOURS = 256, HEADER = 23, ID = 16, KEY = 17, GREETING = 22, ROOM = 1 << 18, REMEMBERED = 1 << 16 };
enum { KIND_AT = 16, TTL_AT = 17, HOPS_AT = 18, LENGTH_AT = 19, PONG = 1, PONG_LENGTH = 14, LISTENER = NEIGHBOURS };

static const char CONSENT[] = "GNUTELLA OK\n\n";

struct neighbour {
    int fd;  // -1: it has gone
    int is_greeted;
    int have;  // bytes in `in`
    int queued, room;  // bytes in `out`, and how many it holds
    unsigned char *in, *out;
};

static struct neighbour neighbours[NEIGHBOURS];
static int count, poller;
static unsigned char remembered[REMEMBERED][KEY];

static void fail(const char *what) {
    perror(what);
    exit(1);
}

static void watch(int how, int fd, uint32_t number, uint32_t events) {
    struct epoll_event event = {.events = events, .data.u32 = number};
    if (epoll_ctl(poller, how, fd, &event)) fail("epoll_ctl");
}

static void queue(struct neighbour *to, const void *bytes, int length) {
    if (to->fd < 0) return;
    if (to->queued + length > to->room) {
        to->room = 2 * (to->queued + length);
        to->out = realloc(to->out, to->room);
        if (!to->out) fail("realloc");
    }
    memcpy(to->out + to->queued, bytes, length);
    to->queued += length;
}

static void write_queued(int number) {
    struct neighbour *to = &neighbours[number];
    int at = 0;
    if (to->fd < 0) return;
    while (at < to->queued) {
        ssize_t n = send(to->fd, to->out + at, to->queued - at, MSG_NOSIGNAL);
        if (n <= 0) break;
        at += n;
    }
    memmove(to->out, to->out + at, to->queued - at);
    to->queued -= at;
    watch(EPOLL_CTL_MOD, to->fd, number, EPOLLIN | (to->queued ? EPOLLOUT : 0));
}

static int is_new(const unsigned char *key) {
    uint32_t hash = 2166136261u;
    for (int at = 0; at < KEY; at++) hash = (hash ^ key[at]) * 16777619u;
    unsigned char *place = remembered[hash >> 16];
    if (!memcmp(place, key, KEY)) return 0;
    memcpy(place, key, KEY);
    return 1;
}

static void answer_ping(struct neighbour *from, const unsigned char *ping) {
    unsigned char pong[HEADER + PONG_LENGTH] = {0};
    memcpy(pong, ping, ID);
    pong[KIND_AT] = PONG;
    pong[TTL_AT] = ping[HOPS_AT] + 1;
    pong[LENGTH_AT] = PONG_LENGTH;
    pong[HEADER + 2] = 127;
    queue(from, pong, sizeof pong);
}

static void relay(int from, unsigned char *descriptor, int length) {
    if (!is_new(descriptor)) return;
    if (descriptor[KIND_AT] == 0) answer_ping(&neighbours[from], descriptor);
    if (descriptor[TTL_AT] <= 1) return;
    descriptor[TTL_AT]--;
    descriptor[HOPS_AT]++;
    for (int to = 0; to < count; to++)
        if (to != from && neighbours[to].is_greeted) queue(&neighbours[to], descriptor, length);
}

static int length_of(const unsigned char *descriptor) {
    uint32_t payload;
    memcpy(&payload, descriptor + LENGTH_AT, sizeof payload);
    if (payload > ROOM - HEADER) exit(1);
    return HEADER + (int)payload;
}

static void take_descriptors(int number) {
    struct neighbour *from = &neighbours[number];
    int at = 0;
    if (!from->is_greeted) {
        if (from->have < GREETING) return;
        from->is_greeted = 1;
        at = GREETING;
        queue(from, CONSENT, sizeof CONSENT - 1);
    }
    while (from->have - at >= HEADER) {
        int length = length_of(from->in + at);
        if (from->have - at < length) break;
        relay(number, from->in + at, length);
        at += length;
    }
    memmove(from->in, from->in + at, from->have - at);
    from->have -= at;
}

static void let_go(int number) {
    write_queued(number);
    close(neighbours[number].fd);
    neighbours[number].fd = -1;
    for (int other = 0; other < count; other++)
        if (neighbours[other].fd >= 0) return;
    exit(0);
}

static void hear(int number) {
    struct neighbour *from = &neighbours[number];
    ssize_t n = recv(from->fd, from->in + from->have, ROOM - from->have, 0);
    if (n < 0 && errno == EAGAIN) return;
    if (n <= 0) {
        let_go(number);
        return;
    }
    from->have += n;
    take_descriptors(number);
}

static void accept_one(int listener) {
    int one = 1;
    if (count == NEIGHBOURS) exit(1);
    struct neighbour *new = &neighbours[count];
    new->fd = accept4(listener, 0, 0, SOCK_NONBLOCK);
    if (new->fd < 0) fail("accept");
    setsockopt(new->fd, IPPROTO_TCP, TCP_NODELAY, &one, sizeof one);
    new->room = ROOM;
    new->in = malloc(ROOM);
    new->out = malloc(new->room);
    if (!new->in || !new->out) fail("malloc");
    watch(EPOLL_CTL_ADD, new->fd, count++, EPOLLIN);
}

static int listen_at(int port) {
    int listener = socket(AF_INET, SOCK_STREAM, 0), one = 1;
    struct sockaddr_in at = {.sin_family = AF_INET, .sin_port = htons(port), .sin_addr.s_addr = htonl(INADDR_LOOPBACK)};
    setsockopt(listener, SOL_SOCKET, SO_REUSEADDR, &one, sizeof one);
    if (bind(listener, (struct sockaddr *)&at, sizeof at) || listen(listener, 128)) fail("listen");
    fprintf(stderr, "listening %d\n", port);
    return listener;
}

int main(int words, char **word) {
    if (words != 2) {
        fprintf(stderr, "usage: relay PORT\n");
        return 2;
    }
    int listener = listen_at(atoi(word[1]));
    poller = epoll_create1(0);
    watch(EPOLL_CTL_ADD, listener, LISTENER, EPOLLIN);
    for (;;) {
        struct epoll_event events[NEIGHBOURS];
        int ready = epoll_wait(poller, events, NEIGHBOURS, -1);
        for (int k = 0; k < ready; k++) {
            uint32_t number = events[k].data.u32;
            if (number == LISTENER) {
                accept_one(listener);
            } else if (neighbours[number].fd >= 0) {
                if (events[k].events & EPOLLOUT) write_queued(number);
                if (events[k].events & (EPOLLIN | EPOLLHUP | EPOLLERR)) hear(number);
            }
        }
        for (int number = 0; number < count; number++)
            if (neighbours[number].queued) write_queued(number);
    }
}
