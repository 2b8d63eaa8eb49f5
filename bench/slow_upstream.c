// An upstream on the loopback that answers each question after a fixed time, over UDP and over TCP, many questions on a connection:
// one A record, 192.0.2.1, of the TTL 0, so that nobody keeps it (RFC 1035, sections 3.2.1 and 4.2).
//
//     slow_upstream PORT MILLISECONDS
//
// One thread; answers wait in the order in which their questions came, since all wait equally long.
#include <arpa/inet.h>
#include <errno.h>
#include <netinet/tcp.h>
#include <stdint.h>
#include <stdlib.h>
#include <string.h>
#include <sys/epoll.h>
#include <sys/socket.h>
#include <time.h>
#include <unistd.h>

enum { MOST_WAITING = 1 << 17, MOST_MESSAGE = 512, MOST_FDS = 4096, MOST_INPUT = 1 << 16 };

struct waiting {
    int64_t due;
    int fd;
    uint32_t generation;
    struct sockaddr_in peer;
    unsigned length;
    unsigned char message[MOST_MESSAGE];
};

struct connection {
    uint32_t generation;
    unsigned length;
    unsigned char *input;
};

static struct waiting *line;
static unsigned first, count;
static struct connection connections[MOST_FDS];
static int64_t delay;
static int datagrams;

static int64_t now(void) {
    struct timespec at;
    clock_gettime(CLOCK_MONOTONIC, &at);
    return (int64_t)at.tv_sec * 1000000000 + at.tv_nsec;
}

// Keeps the answer to a question until it is due. What isn't a question, or finds no room, is dropped.
static void keep(int fd, const struct sockaddr_in *peer, const unsigned char *question, unsigned length) {
    static const unsigned char record[] = {0xc0, 12, 0, 1, 0, 1, 0, 0, 0, 0, 0, 4, 192, 0, 2, 1};
    if (length < 17 || length + sizeof record > MOST_MESSAGE || count == MOST_WAITING) return;
    unsigned end = 12;
    while (end < length && question[end] != 0) end += question[end] + 1;
    end += 5;
    if (end > length) return;
    struct waiting *one = &line[(first + count++) % MOST_WAITING];
    one->due = now() + delay;
    one->fd = fd;
    one->generation = fd == datagrams ? 0 : connections[fd].generation;
    if (peer) one->peer = *peer;
    memcpy(one->message, question, end);
    memcpy(one->message + end, record, sizeof record);
    one->length = end + sizeof record;
    one->message[2] = 0x81;
    one->message[3] = 0x80;
    memset(one->message + 4, 0, 8);
    one->message[5] = one->message[7] = 1;
}

static void send_due(void) {
    int64_t at = now();
    for (; count && line[first].due <= at; first = (first + 1) % MOST_WAITING, count--) {
        struct waiting *one = &line[first];
        if (one->fd == datagrams) {
            sendto(datagrams, one->message, one->length, MSG_DONTWAIT, (struct sockaddr *)&one->peer, sizeof one->peer);
            continue;
        }
        if (connections[one->fd].generation != one->generation) continue;
        unsigned char framed[2 + MOST_MESSAGE];
        framed[0] = one->length >> 8;
        framed[1] = one->length & 255;
        memcpy(framed + 2, one->message, one->length);
        // a part of a message would spoil the connection, which then ends
        if (send(one->fd, framed, one->length + 2, MSG_NOSIGNAL) != (ssize_t)one->length + 2) shutdown(one->fd, SHUT_RDWR);
    }
}

static void read_datagrams(void) {
    for (int turn = 0; turn < 256; turn++) {
        unsigned char message[MOST_MESSAGE];
        struct sockaddr_in peer;
        socklen_t length = sizeof peer;
        ssize_t got = recvfrom(datagrams, message, sizeof message, MSG_DONTWAIT, (struct sockaddr *)&peer, &length);
        if (got < 0) return;
        keep(datagrams, &peer, message, (unsigned)got);
    }
}

static void end_connection(int fd) {
    connections[fd].generation++;
    free(connections[fd].input);
    connections[fd].input = NULL;
    close(fd);
}

static void read_connection(int fd) {
    struct connection *one = &connections[fd];
    ssize_t got = recv(fd, one->input + one->length, MOST_INPUT - one->length, MSG_DONTWAIT);
    if (got < 0 && (errno == EAGAIN || errno == EINTR)) return;
    if (got <= 0) {
        end_connection(fd);
        return;
    }
    one->length += (unsigned)got;
    unsigned at = 0;
    while (one->length - at >= 2) {
        unsigned length = one->input[at] << 8 | one->input[at + 1];
        if (one->length - at < 2 + length) break;
        keep(fd, NULL, one->input + at + 2, length);
        at += 2 + length;
    }
    memmove(one->input, one->input + at, one->length - at);
    one->length -= at;
}

int main(int argc, char **argv) {
    if (argc != 3) return 2;
    delay = (int64_t)atoi(argv[2]) * 1000000;
    line = malloc(sizeof *line * MOST_WAITING);
    struct sockaddr_in at;
    memset(&at, 0, sizeof at);
    at.sin_family = AF_INET;
    at.sin_port = htons((unsigned short)atoi(argv[1]));
    at.sin_addr.s_addr = htonl(INADDR_LOOPBACK);
    datagrams = socket(AF_INET, SOCK_DGRAM, 0);
    int listener = socket(AF_INET, SOCK_STREAM, 0), on = 1, size = 4 << 20, epoll = epoll_create1(0);
    setsockopt(listener, SOL_SOCKET, SO_REUSEADDR, &on, sizeof on);
    setsockopt(datagrams, SOL_SOCKET, SO_RCVBUF, &size, sizeof size);
    if (!line || bind(datagrams, (struct sockaddr *)&at, sizeof at) || bind(listener, (struct sockaddr *)&at, sizeof at) || listen(listener, 512))
        return 1;
    struct epoll_event event = {.events = EPOLLIN, .data.fd = datagrams};
    epoll_ctl(epoll, EPOLL_CTL_ADD, datagrams, &event);
    event.data.fd = listener;
    epoll_ctl(epoll, EPOLL_CTL_ADD, listener, &event);
    for (;;) {
        struct epoll_event events[64];
        int got = epoll_wait(epoll, events, 64, count ? 1 : 1000);
        for (int i = 0; i < got; i++) {
            int fd = events[i].data.fd;
            if (fd == datagrams) {
                read_datagrams();
            } else if (fd == listener) {
                int one = accept(listener, NULL, NULL);
                if (one < 0 || one >= MOST_FDS) {
                    if (one >= 0) close(one);
                    continue;
                }
                setsockopt(one, IPPROTO_TCP, TCP_NODELAY, &on, sizeof on);
                connections[one].length = 0;
                connections[one].input = malloc(MOST_INPUT);
                event.data.fd = one;
                epoll_ctl(epoll, EPOLL_CTL_ADD, one, &event);
            } else {
                read_connection(fd);
            }
        }
        send_due();
    }
}
