/* Tests of ddserve.h over the program that DDSERVE names, or with ALONE over the library without it. Words: a file of lines and one of the replies to them. It says what is
   wrong and ends with 1, or ends with 0. */
#define _GNU_SOURCE
#include "../ddserve.h"

#include <dirent.h>
#include <errno.h>
#include <pthread.h>
#include <stdbool.h>
#include <stdint.h>
#include <stdio.h>
#include <stdlib.h>
#include <string.h>
#include <sys/wait.h>
#include <unistd.h>

#define MOST 1000
#define THREADS 8

static char *lines[MOST], *replies[MOST];
static int count;

#define CHECK(fact) \
    do { \
        if (!(fact)) { \
            fprintf(stderr, "client.c:%d: not so: %s\n", __LINE__, #fact); \
            exit(1); \
        } \
    } while (0)

static int read_lines(const char *path, char **into) {
    FILE *file = fopen(path, "r");
    CHECK(file);
    char *line = NULL;
    size_t room = 0;
    int found = 0;
    for (ssize_t length; found < MOST && (length = getline(&line, &room, file)) > 0;) {
        line[length - 1] = '\0';
        into[found++] = strdup(line);
    }
    free(line);
    fclose(file);
    return found;
}

static int is_answered(ddserve_solver *solver, int at) {
    char reply[DDSERVE_LONGEST_REPLY + 1];
    long length = ddserve_line(solver, lines[at], strlen(lines[at]), reply, sizeof reply);
    return length == (long)strlen(replies[at]) && strcmp(reply, replies[at]) == 0;
}

static void recorded(void) {
    ddserve_solver *solver = ddserve_open(0);
    CHECK(solver);
    for (int at = 0; at < count; at++) CHECK(is_answered(solver, at));
    ddserve_close(solver);
}

/* A buffer has to have room for the reply and its NUL, and none of its other bytes is touched. */
static void buffers(void) {
    ddserve_solver *solver = ddserve_open(1);
    char reply[DDSERVE_LONGEST_REPLY + 1];
    long length = (long)strlen(replies[0]);
    memset(reply, '#', sizeof reply);
    CHECK(ddserve_line(solver, lines[0], strlen(lines[0]), reply, (size_t)length) == DDSERVE_NO_ROOM);
    CHECK(ddserve_line(solver, lines[0], strlen(lines[0]), NULL, 0) == DDSERVE_NO_ROOM);
    CHECK(reply[0] == '#');
    CHECK(ddserve_line(solver, lines[0], strlen(lines[0]), reply, (size_t)length + 1) == length);
    CHECK(strcmp(reply, replies[0]) == 0 && reply[length + 1] == '#');
    CHECK(is_answered(solver, 1));
    ddserve_close(solver);
}

/* The buffer of a reply may be that of the line. */
static void one_buffer(void) {
    ddserve_solver *solver = ddserve_open(0);
    char text[8192];
    for (size_t before = 0; before < 200; before += 50) {
        strcpy(text + before, lines[0]);
        CHECK(ddserve_line(solver, text + before, strlen(lines[0]), text, sizeof text) == (long)strlen(replies[0]));
        CHECK(strcmp(text, replies[0]) == 0);
        strcpy(text, lines[1]);
        CHECK(ddserve_line(solver, text, strlen(lines[1]), text + before, sizeof text - before) == (long)strlen(replies[1]));
        CHECK(strcmp(text + before, replies[1]) == 0);
    }
    ddserve_close(solver);
}

/* Lines that are none, and lines longer than a socket takes at once. */
static void odd_lines(void) {
    ddserve_solver *solver = ddserve_open(65536);
    char reply[DDSERVE_LONGEST_REPLY + 1];
    size_t size = 1 << 20;
    char *large = malloc(size);
    memset(large, 'x', size);
    CHECK(ddserve_line(solver, "", 0, reply, sizeof reply) > 0 && strcmp(reply, "{\"fault\":1}") == 0);
    CHECK(ddserve_line(solver, NULL, 0, reply, sizeof reply) > 0 && strcmp(reply, "{\"fault\":1}") == 0);
    CHECK(ddserve_line(solver, large, 4096, reply, sizeof reply) > 0 && strcmp(reply, "{\"fault\":1}") == 0);
    CHECK(ddserve_line(solver, large, 4097, reply, sizeof reply) > 0 && strcmp(reply, "{\"fault\":2}") == 0);
    CHECK(ddserve_line(solver, large, size, reply, sizeof reply) > 0 && strcmp(reply, "{\"fault\":2}") == 0);
    large[4000] = '\n';
    CHECK(ddserve_line(solver, large, size, reply, sizeof reply) == DDSERVE_NO_LINE);
    CHECK(ddserve_line(solver, "\n", 1, reply, sizeof reply) == DDSERVE_NO_LINE);
    CHECK(is_answered(solver, 2));
    free(large);
    ddserve_close(solver);
    ddserve_close(NULL);
}

static void *ask_all(void *of) {
    int begin = (int)(long)of;
    ddserve_solver *one = ddserve_open(0), *other = ddserve_open(16);
    if (!one || !other) return NULL;
    for (int at = 0; at < count; at++) {
        if (!is_answered(at % 2 ? one : other, (begin * 37 + at) % count)) return NULL;
    }
    ddserve_close(one);
    ddserve_close(other);
    return of;
}

/* Two solvers in each thread: none hears another's replies. */
static void threads(void) {
    pthread_t started[THREADS];
    for (long at = 0; at < THREADS; at++) CHECK(pthread_create(&started[at], NULL, ask_all, (void *)(at + 1)) == 0);
    for (int at = 0; at < THREADS; at++) {
        void *all = NULL;
        pthread_join(started[at], &all);
        CHECK(all);
    }
}

/* A solver is of the process that opened it. A child may close it, and the parent's goes on. */
static void forks(void) {
#ifdef ALONE
    /* What the library has for the parent is lost in the child, as valgrind sees it. */
    if (getenv("UNDER_VALGRIND")) return;
#endif
    ddserve_solver *solver = ddserve_open(0);
    CHECK(is_answered(solver, 0));
    pid_t child = fork();
    if (child == 0) {
        char reply[DDSERVE_LONGEST_REPLY + 1];
        int is_refused = ddserve_line(solver, lines[0], strlen(lines[0]), reply, sizeof reply) == DDSERVE_FORKED;
        ddserve_close(solver);
        ddserve_solver *own = ddserve_open(0);
        int is_own = own && is_answered(own, 1);
        ddserve_close(own);
        for (int at = 0; at < count; at++) {
            free(lines[at]);
            free(replies[at]);
        }
        _exit(is_refused && is_own ? 0 : 1);
    }
    int status = 1;
    CHECK(waitpid(child, &status, 0) == child && status == 0);
    CHECK(is_answered(solver, 1));
    ddserve_close(solver);
}

static int descriptors(void) {
    DIR *folder = opendir("/proc/self/fd");
    int found = 0;
    while (readdir(folder)) found++;
    closedir(folder);
    return found;
}

#ifndef ALONE
/* A program that ends at once, and one that is not there. */
static void other_programs(void) {
    char reply[64], *program = strdup(getenv("DDSERVE"));
    setenv("DDSERVE", "/bin/true", 1);
    ddserve_solver *ended = ddserve_open(0);
    CHECK(ended);
    for (int at = 0; at < 3; at++) CHECK(ddserve_line(ended, "{}", 2, reply, sizeof reply) == DDSERVE_ENDED);
    ddserve_close(ended);
    setenv("DDSERVE", "/nowhere/ddserve", 1);
    errno = 0;
    ended = ddserve_open(0);
    if (getenv("UNDER_VALGRIND") && ended) {
        /* It makes a fork of the system's spawn, which can't tell that there is no such program. */
        CHECK(ddserve_line(ended, "{}", 2, reply, sizeof reply) == DDSERVE_ENDED);
        ddserve_close(ended);
    } else {
        CHECK(ended == NULL && errno == ENOENT);
    }
    setenv("DDSERVE", program, 1);
    free(program);
}
#endif

/* Nothing is left of a solver, whether it is idle, within a search, or its program has ended by itself. */
static void ends(void) {
    int before = descriptors();
    for (int at = 0; at < 20; at++) {
        ddserve_solver *solver = ddserve_open(0);
        CHECK(at % 2 || is_answered(solver, at));
        ddserve_close(solver);
    }
#ifndef ALONE
    other_programs();
#endif
    CHECK(descriptors() == before);
    CHECK(waitpid(-1, NULL, WNOHANG) == -1 && errno == ECHILD);
}

/* A host without an input and an output: the stream takes neither's number. */
static void closed_streams(void) {
    pid_t child = fork();
    if (child == 0) {
        close(STDIN_FILENO);
        close(STDOUT_FILENO);
        ddserve_solver *solver = ddserve_open(0);
        int is_right = solver && is_answered(solver, 0) && write(STDOUT_FILENO, "x", 1) == -1 && is_answered(solver, 1);
        ddserve_close(solver);
        for (int at = 0; at < count; at++) {
            free(lines[at]);
            free(replies[at]);
        }
        _exit(is_right ? 0 : 1);
    }
    int status = 1;
    CHECK(waitpid(child, &status, 0) == child && status == 0);
}

#ifdef ALONE
/* The library's own calls: a solver that is not open answers nothing, one that is opened or closed twice leaves nothing behind. */
static void library(void) {
    struct ddserve_c_solver {
        bool is_open;
        void *held;
    } solver = {0};
    extern bool ddserve_c_open(struct ddserve_c_solver *);
    extern int64_t ddserve_c_line(struct ddserve_c_solver *, const uint8_t *, size_t, uint8_t *, size_t);
    extern void ddserve_c_close(struct ddserve_c_solver *);
    uint8_t buffer[DDSERVE_LONGEST_REPLY + 1] = "#";
    const uint8_t *line = (const uint8_t *)lines[0];
    size_t length = strlen(lines[0]);
    ddserve_c_close(&solver);
    CHECK(ddserve_c_line(&solver, line, length, buffer, sizeof buffer) == -1 && buffer[0] == '#');
    for (int at = 0; at < 2; at++) {
        CHECK(ddserve_c_open(&solver));
        CHECK(ddserve_c_line(&solver, line, length, buffer, sizeof buffer) == (int64_t)strlen(replies[0]));
        CHECK(strcmp((char *)buffer, replies[0]) == 0);
    }
    for (int at = 0; at < 2; at++) ddserve_c_close(&solver);
    CHECK(ddserve_c_line(&solver, line, length, buffer, sizeof buffer) == -1 && !solver.is_open);
}
#endif

int main(int words, char **word) {
    CHECK(words == 3 && getenv("DDSERVE"));
    count = read_lines(word[1], lines);
    CHECK(count > 20 && read_lines(word[2], replies) == count);
    recorded();
    buffers();
    one_buffer();
    odd_lines();
    threads();
    forks();
    ends();
    closed_streams();
#ifdef ALONE
    library();
#endif
    for (int at = 0; at < count; at++) {
        free(lines[at]);
        free(replies[at]);
    }
    printf("client: %d recorded lines, buffers, odd lines, threads, forks and ends\n", count);
    return 0;
}
