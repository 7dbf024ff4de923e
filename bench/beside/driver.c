/* Stands in for the socket and the clock of a SIP library, so that only the library's own work is
 * timed. Each wait for events gives the next OPTIONS of a file, a moment later: as many
 * transactions are held as were asked for, since one of 32 s ends whenever one begins. What is sent
 * is counted, and thrown away. */
#define _GNU_SOURCE
#include "driver.h"

#include <arpa/inet.h>
#include <errno.h>
#include <poll.h>
#include <stdarg.h>
#include <stdio.h>
#include <stdlib.h>
#include <string.h>
#include <sys/epoll.h>
#include <sys/ioctl.h>
#include <sys/socket.h>
#include <sys/syscall.h>
#include <sys/time.h>
#include <time.h>
#include <unistd.h>

enum { LIFETIME_S = 32, DIGITS = 7, MOST_BYTES = 4096 };

static char text[MOST_BYTES];
static size_t length;
static char *numbers[2];
static int is_waiting;
static long held, timed, given, answered;
static long long now_ns = 1000000000000000LL, begin_ns;
static struct epoll_event at_socket;
static int socket_fd = -1;

static long long cpu_ns(void) {
    struct timespec at;
    syscall(SYS_clock_gettime, CLOCK_PROCESS_CPUTIME_ID, &at);
    return at.tv_sec * 1000000000LL + at.tv_nsec;
}

/* The file's branch and Call-ID have a number of seven digits each. It is another one each time. */
void driver_begin(int count, char **words) {
    if (count != 4) {
        fprintf(stderr, "usage: %s FILE HELD TIMED\n", words[0]);
        exit(2);
    }
    FILE *file = fopen(words[1], "r");
    if (!file) {
        perror(words[1]);
        exit(1);
    }
    length = fread(text, 1, sizeof text - 1, file);
    fclose(file);
    held = atol(words[2]);
    timed = atol(words[3]);
    char *found = text;
    for (int i = 0; i < 2; i++) {
        found = strstr(found, "0000001");
        if (!found) {
            fprintf(stderr, "%s: no number\n", words[1]);
            exit(1);
        }
        numbers[i] = found;
        found += DIGITS;
    }
}

static void next(void) {
    char digits[24];
    if (given == held)
        begin_ns = cpu_ns();
    if (given == held + timed) {
        printf("%.3f\n", (cpu_ns() - begin_ns) / 1000.0 / timed);
        if (answered != given)
            fprintf(stderr, "%ld of %ld answered\n", answered, given);
        driver_end();
        return;
    }
    snprintf(digits, sizeof digits, "%07ld", (given + 1) % 10000000);
    for (int i = 0; i < 2; i++)
        memcpy(numbers[i], digits, DIGITS);
    given++;
    now_ns += LIFETIME_S * 1000000000LL / held;
    is_waiting = 1;
}

static ssize_t take(void *into, size_t room, int is_peek) {
    if (!is_waiting) {
        errno = EAGAIN;
        return -1;
    }
    is_waiting = is_peek;
    size_t count = length < room ? length : room;
    memcpy(into, text, count);
    return count;
}

static void name_peer(void *into, socklen_t *room) {
    struct sockaddr_in peer = {.sin_family = AF_INET, .sin_port = htons(5070)};
    inet_pton(AF_INET, "127.0.0.1", &peer.sin_addr);
    if (into && room) {
        memcpy(into, &peer, *room < sizeof peer ? *room : sizeof peer);
        *room = sizeof peer;
    }
}

static void count_answer(const void *bytes, size_t count) {
    answered += count > 11 && !memcmp(bytes, "SIP/2.0 200", 11);
}

/* ---- the socket */

static int is_datagram_socket(int fd) {
    int type = 0;
    socklen_t size = sizeof type;
    return !getsockopt(fd, SOL_SOCKET, SO_TYPE, &type, &size) && type == SOCK_DGRAM;
}

int epoll_ctl(int epoll, int op, int fd, struct epoll_event *event) {
    if (op != EPOLL_CTL_DEL && event && is_datagram_socket(fd)) {
        at_socket = *event;
        socket_fd = fd;
    }
    return syscall(SYS_epoll_ctl, epoll, op, fd, event);
}

int epoll_wait(int epoll, struct epoll_event *events, int most, int timeout) {
    (void)epoll, (void)most, (void)timeout;
    next();
    if (!is_waiting)
        return 0;
    events[0] = at_socket;
    events[0].events = EPOLLIN;
    return 1;
}

int poll(struct pollfd *fds, nfds_t count, int timeout) {
    (void)timeout;
    next();
    int found = 0;
    for (nfds_t i = 0; i < count; i++) {
        fds[i].revents = is_waiting && is_datagram_socket(fds[i].fd) ? POLLIN : 0;
        found += fds[i].revents != 0;
    }
    return found;
}

int ioctl(int fd, unsigned long request, ...) {
    va_list more;
    va_start(more, request);
    void *argument = va_arg(more, void *);
    va_end(more);
    if (request == FIONREAD) {
        *(int *)argument = is_waiting ? (int)length : 0;
        return 0;
    }
    return syscall(SYS_ioctl, fd, request, argument);
}

ssize_t recv(int fd, void *into, size_t room, int flags) {
    (void)fd;
    ssize_t count = take(into, room, flags & MSG_PEEK);
    return count >= 0 && (flags & MSG_TRUNC) ? (ssize_t)length : count;
}

ssize_t recvfrom(int fd, void *into, size_t room, int flags, struct sockaddr *from,
                 socklen_t *from_room) {
    ssize_t count = recv(fd, into, room, flags);
    if (count >= 0)
        name_peer(from, from_room);
    return count;
}

ssize_t recvmsg(int fd, struct msghdr *message, int flags) {
    if ((flags & MSG_ERRQUEUE) || message->msg_iovlen < 1) {
        errno = EAGAIN;
        return -1;
    }
    ssize_t count = recv(fd, message->msg_iov[0].iov_base, message->msg_iov[0].iov_len, flags);
    if (count >= 0) {
        name_peer(message->msg_name, &message->msg_namelen);
        message->msg_controllen = 0;
        message->msg_flags = 0;
    }
    return count;
}

ssize_t sendto(int fd, const void *bytes, size_t count, int flags, const struct sockaddr *to,
               socklen_t to_size) {
    (void)fd, (void)flags, (void)to, (void)to_size;
    count_answer(bytes, count);
    return count;
}

ssize_t sendmsg(int fd, const struct msghdr *message, int flags) {
    (void)fd, (void)flags;
    size_t count = 0;
    for (size_t i = 0; i < message->msg_iovlen; i++)
        count += message->msg_iov[i].iov_len;
    if (message->msg_iovlen > 0)
        count_answer(message->msg_iov[0].iov_base, message->msg_iov[0].iov_len);
    return count;
}

/* ---- the clock */

int clock_gettime(clockid_t clock, struct timespec *at) {
    (void)clock;
    at->tv_sec = now_ns / 1000000000LL;
    at->tv_nsec = now_ns % 1000000000LL;
    return 0;
}

int gettimeofday(struct timeval *at, void *zone) {
    (void)zone;
    at->tv_sec = now_ns / 1000000000LL;
    at->tv_usec = now_ns % 1000000000LL / 1000;
    return 0;
}
