// Neighbours of a Gnutella v0.4 router that send Pings and count what comes: neighbours PORT COUNT WINDOW RATE SECONDS
//
// COUNT neighbours greet. With a WINDOW each keeps so many Pings unanswered; with WINDOW 0 all together send RATE a second.
// After SECONDS they send no more, wait until nothing has come for half a second, and print one line: Pings sent, answered,
// forwards that came, seconds from the first byte sent to the last that came, and the time to an answer in microseconds: half of
// them, 99 of 100, the longest.
#define _GNU_SOURCE
#include <arpa/inet.h>
#include <errno.h>
#include <fcntl.h>
#include <netinet/in.h>
#include <netinet/tcp.h>
#include <stdint.h>
#include <stdio.h>
#include <stdlib.h>
#include <string.h>
#include <sys/epoll.h>
#include <sys/socket.h>
#include <time.h>
#include <unistd.h>

enum { MOST = 256, HEADER = 23, ROOM = 1 << 20, TIMES = 8000000, SENDER_AT = 12, MARK_AT = 14, MARK = 0xbb };
enum { KIND_AT = 16, TTL_AT = 17, LENGTH_AT = 19, PING = 0, PONG = 1 };

static const uint64_t SECOND = 1000000000ull;
static const char REQUEST[] = "GNUTELLA CONNECT/0.4\n\n", CONSENT[] = "GNUTELLA OK\n\n";

struct neighbour {
    int fd, is_gone;
    int have, queued;  // bytes in `in` and in `out`
    long sent, answered;
    unsigned char in[ROOM], out[ROOM];
};

static struct neighbour *neighbours;
static int count, window, poller;
static double rate;
static long sent, answered, forwards;
static uint32_t *times;
static long timed;
static uint64_t first_sent, last_come;

static uint64_t now(void) {
    struct timespec time;
    clock_gettime(CLOCK_MONOTONIC, &time);
    return time.tv_sec * SECOND + time.tv_nsec;
}

static void fail(const char *what) {
    perror(what);
    exit(1);
}

static void watch(int how, int number, uint32_t events) {
    struct epoll_event event = {.events = events, .data.u32 = number};
    if (epoll_ctl(poller, how, neighbours[number].fd, &event)) fail("epoll_ctl");
}

static void greet(int number, int port) {
    struct neighbour *it = &neighbours[number];
    struct sockaddr_in at = {.sin_family = AF_INET, .sin_port = htons(port), .sin_addr.s_addr = htonl(INADDR_LOOPBACK)};
    char said[sizeof CONSENT - 1];
    int one = 1;
    it->fd = socket(AF_INET, SOCK_STREAM, 0);
    if (it->fd < 0 || connect(it->fd, (struct sockaddr *)&at, sizeof at)) fail("connect");
    setsockopt(it->fd, IPPROTO_TCP, TCP_NODELAY, &one, sizeof one);
    if (send(it->fd, REQUEST, sizeof REQUEST - 1, MSG_NOSIGNAL) != sizeof REQUEST - 1) fail("send");
    if (recv(it->fd, said, sizeof said, MSG_WAITALL) != sizeof said || memcmp(said, CONSENT, sizeof said)) {
        fprintf(stderr, "neighbour %d has no consent\n", number);
        exit(1);
    }
    fcntl(it->fd, F_SETFL, O_NONBLOCK);
    watch(EPOLL_CTL_ADD, number, EPOLLIN);
}

static void write_queued(int number) {
    struct neighbour *it = &neighbours[number];
    int at = 0;
    while (at < it->queued) {
        ssize_t n = send(it->fd, it->out + at, it->queued - at, MSG_NOSIGNAL);
        if (n < 0 && errno != EAGAIN) it->is_gone = 1;
        if (n <= 0) break;
        at += n;
    }
    memmove(it->out, it->out + at, it->queued - at);
    it->queued -= at;
    if (!it->is_gone) watch(EPOLL_CTL_MOD, number, EPOLLIN | (it->queued ? EPOLLOUT : 0));
}

// A Ping whose ID says when it was sent, the how manieth it is, and by whom.
static void queue_ping(int number) {
    struct neighbour *it = &neighbours[number];
    unsigned char ping[HEADER] = {0};
    uint64_t time = now();
    uint32_t serial = sent;
    if (it->is_gone || it->queued + HEADER > ROOM) return;
    memcpy(ping, &time, sizeof time);
    memcpy(ping + 8, &serial, sizeof serial);
    ping[SENDER_AT] = number;
    ping[MARK_AT] = MARK;
    ping[TTL_AT] = 7;
    memcpy(it->out + it->queued, ping, HEADER);
    it->queued += HEADER;
    it->sent++;
    sent++;
    if (!first_sent) first_sent = time;
}

static void send_windows(void) {
    for (int number = 0; number < count; number++) {
        struct neighbour *it = &neighbours[number];
        long before = it->sent;
        while (!it->is_gone && it->sent - it->answered < window && it->queued + HEADER <= ROOM) queue_ping(number);
        if (it->sent > before) write_queued(number);
    }
}

static void send_due(uint64_t since) {
    double due = (double)since / SECOND * rate;
    for (long serial = sent; serial < due; serial++) {
        queue_ping(serial % count);
        write_queued(serial % count);
    }
}

static void take(int number, const unsigned char *descriptor, uint64_t time) {
    uint64_t begun;
    if (descriptor[MARK_AT] != MARK) return;
    if (descriptor[KIND_AT] == PING) forwards++;
    if (descriptor[KIND_AT] != PONG || descriptor[SENDER_AT] != number) return;
    memcpy(&begun, descriptor, sizeof begun);
    if (timed < TIMES) times[timed++] = (time - begun) / 1000;
    neighbours[number].answered++;
    answered++;
}

static void hear(int number) {
    struct neighbour *it = &neighbours[number];
    ssize_t n = recv(it->fd, it->in + it->have, ROOM - it->have, 0);
    int at = 0;
    if (n < 0 && errno == EAGAIN) return;
    if (n <= 0) {
        it->is_gone = 1;
        epoll_ctl(poller, EPOLL_CTL_DEL, it->fd, 0);
        return;
    }
    last_come = now();
    it->have += n;
    while (it->have - at >= HEADER) {
        uint32_t payload;
        memcpy(&payload, it->in + at + LENGTH_AT, sizeof payload);
        if ((uint32_t)(it->have - at) < HEADER + payload) break;
        take(number, it->in + at, last_come);
        at += HEADER + payload;
    }
    memmove(it->in, it->in + at, it->have - at);
    it->have -= at;
}

static int by_size(const void *one, const void *other) {
    uint32_t a = *(const uint32_t *)one, b = *(const uint32_t *)other;
    return (a > b) - (a < b);
}

static void print_counts(void) {
    double seconds = first_sent && last_come > first_sent ? (double)(last_come - first_sent) / SECOND : 0;
    uint32_t none = 0, *sorted = timed ? times : &none;
    long last = timed ? timed - 1 : 0;
    qsort(sorted, timed, sizeof *sorted, by_size);
    printf("%ld %ld %ld %.6f %u %u %u\n", sent, answered, forwards, seconds, sorted[last / 2], sorted[last * 99 / 100], sorted[last]);
}

static void leave(void) {
    static char heard[1 << 16];
    struct timeval limit = {5, 0};
    for (int number = 0; number < count; number++) shutdown(neighbours[number].fd, SHUT_WR);
    for (int number = 0; number < count; number++) {
        int fd = neighbours[number].fd;
        fcntl(fd, F_SETFL, 0);
        setsockopt(fd, SOL_SOCKET, SO_RCVTIMEO, &limit, sizeof limit);
        while (recv(fd, heard, sizeof heard, 0) > 0) continue;
        close(fd);
    }
}

int main(int words, char **word) {
    if (words != 6 || atoi(word[2]) < 1 || atoi(word[2]) > MOST) {
        fprintf(stderr, "usage: neighbours PORT COUNT WINDOW RATE SECONDS\n");
        return 2;
    }
    count = atoi(word[2]);
    window = atoi(word[3]);
    rate = atof(word[4]);
    neighbours = calloc(count, sizeof *neighbours);
    times = malloc(TIMES * sizeof *times);
    poller = epoll_create1(0);
    if (!neighbours || !times || poller < 0) fail("start");
    for (int number = 0; number < count; number++) greet(number, atoi(word[1]));
    uint64_t begun = now(), end = begun + (uint64_t)(atof(word[5]) * SECOND);
    last_come = begun;
    for (;;) {
        struct epoll_event events[MOST];
        uint64_t time = now();
        if (time < end) {
            if (window) send_windows();
            else send_due(time - begun);
        } else if (time > last_come + SECOND / 2) {
            break;
        }
        int ready = epoll_wait(poller, events, MOST, window ? 20 : 1);
        for (int k = 0; k < ready; k++) {
            int number = events[k].data.u32;
            if (events[k].events & EPOLLOUT) write_queued(number);
            if (events[k].events & (EPOLLIN | EPOLLHUP | EPOLLERR)) hear(number);
        }
    }
    print_counts();
    leave();
}
