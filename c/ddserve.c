/* Solvers that are processes of the program, each at the other end of a pair of sockets. A write to an end that is closed raises no
   signal. */
#define _GNU_SOURCE
#include "ddserve.h"
#include "ddserve_start.h"

#include <errno.h>
#include <fcntl.h>
#include <stdlib.h>
#include <string.h>
#include <sys/socket.h>
#include <sys/uio.h>
#include <unistd.h>

struct ddserve_solver {
    pid_t program;
    pid_t owner; /* who opened it: after a fork it is still the parent's */
    int stream;
    char reply[DDSERVE_LONGEST_REPLY + 1]; /* with its line feed */
};

/* The same stream under another number: a host may have closed its own input or output, and a stream in their places would be taken
   for them. Returns the number, or less than 0, and errno says why. */
static int above_standard(int stream) {
    int moved = fcntl(stream, F_DUPFD_CLOEXEC, STDERR_FILENO + 1), error = errno;
    close(stream);
    errno = error;
    return moved;
}

/* Starts what answers at the other end of a stream. Returns 0 or an error's number. */
static int connect_end(ddserve_solver *solver, unsigned entries) {
    int ends[2];
    if (socketpair(AF_UNIX, SOCK_STREAM | SOCK_CLOEXEC, 0, ends)) return errno;
    solver->stream = above_standard(ends[0]);
    int error = solver->stream < 0 ? errno : 0;
    int other = above_standard(ends[1]);
    if (!error && other < 0) error = errno;
    if (!error) {
        error = ddserve_start(&solver->program, other, entries);
        other = -1;
    }
    if (error && solver->stream >= 0) close(solver->stream);
    if (other >= 0) close(other);
    return error;
}

ddserve_solver *ddserve_open(unsigned entries) {
    ddserve_solver *solver = malloc(sizeof *solver);
    if (!solver) return NULL;
    solver->owner = getpid();
    int error = connect_end(solver, entries);
    if (!error) return solver;
    free(solver);
    errno = error;
    return NULL;
}

/* Sends the line and its line feed. Returns 0 where the program has ended. */
static int send_line(int stream, const char *line, size_t length) {
    struct iovec parts[2] = {{(void *)line, length}, {(void *)"\n", 1}};
    struct msghdr message = {0};
    size_t left = length + 1;
    while (left) {
        size_t sent = length + 1 - left;
        message.msg_iov = sent < length ? parts : parts + 1;
        message.msg_iovlen = sent < length ? 2 : 1;
        parts[0].iov_base = (void *)(line + (sent < length ? sent : 0));
        parts[0].iov_len = sent < length ? length - sent : 0;
        ssize_t count = sendmsg(stream, &message, MSG_NOSIGNAL);
        if (count < 0 && errno == EINTR) continue;
        if (count < 0) return 0;
        left -= (size_t)count;
    }
    return 1;
}

/* Receives a reply with its line feed, which is its last byte. Returns the number of bytes, or 0 where the program has ended. */
static size_t receive_reply(int stream, char *reply, size_t capacity) {
    size_t length = 0;
    while (length < capacity) {
        ssize_t count = recv(stream, reply + length, capacity - length, 0);
        if (count < 0 && errno == EINTR) continue;
        if (count <= 0) return 0;
        length += (size_t)count;
        if (reply[length - 1] == '\n') return length;
    }
    return 0;
}

long ddserve_line(ddserve_solver *solver, const char *line, size_t length, char *reply, size_t capacity) {
    if (solver->owner != getpid()) return DDSERVE_FORKED;
    if (length && memchr(line, '\n', length)) return DDSERVE_NO_LINE;
    if (!send_line(solver->stream, line, length)) return DDSERVE_ENDED;
    size_t received = receive_reply(solver->stream, solver->reply, sizeof solver->reply);
    if (!received) return DDSERVE_ENDED;
    if (received > capacity) return DDSERVE_NO_ROOM;
    memcpy(reply, solver->reply, received - 1);
    reply[received - 1] = '\0';
    return (long)(received - 1);
}

void ddserve_close(ddserve_solver *solver) {
    if (!solver) return;
    bool is_own = solver->owner == getpid();
    /* Not by closing alone: a process that was forked from this one may have the stream too. */
    if (is_own) shutdown(solver->stream, SHUT_RDWR);
    close(solver->stream);
    ddserve_stop(solver->program, is_own);
    free(solver);
}
