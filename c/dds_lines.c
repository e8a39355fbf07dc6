/* Lines, the solvers that answer them, and threads over many boards. */
#define _GNU_SOURCE
#include "dds_lines.h"
#include "ddserve_start.h"

#include <errno.h>
#include <pthread.h>
#include <stdatomic.h>
#include <stdio.h>
#include <string.h>
#include <unistd.h>

/* So many solvers are kept for later calls. */
#define MOST_IDLE 128
#define MOST_ENTRIES 65536
#define MOST_THREADS 128

/* About what a solver takes: its cache and its program, in MB, and an entry of its table, in bytes. */
#define SOLVER_MB 35
#define ENTRY_BYTES 700

static pthread_mutex_t lock = PTHREAD_MUTEX_INITIALIZER;
static ddserve_solver *idle[MOST_IDLE];
static int idle_count;
static int processors = 1; /* counted once, since the system reads a file for it */
static atomic_int threads_asked;
static atomic_uint entries = MOST_ENTRIES;
static char failure[LONGEST_FAILURE];
static atomic_bool is_failing; /* whether `failure` is a text */
static bool is_told;

void put(struct line *line, const char *text) {
    size_t length = strlen(text);
    if (length >= sizeof line->text - line->length) return;
    memcpy(line->text + line->length, text, length + 1);
    line->length += length;
}

void put_number(struct line *line, int number) {
    char text[12];
    char *at = text + sizeof text - 1;
    *at = '\0';
    for (; at == text + sizeof text - 1 || number > 0; number /= 10) *--at = (char)('0' + number % 10);
    put(line, at);
}

void put_cards(struct line *line, const struct deal *deal) {
    char text[80];
    char *at = text;
    for (int hand = 0; hand < DDS_HANDS; hand++) {
        for (int suit = 0; suit < DDS_SUITS; suit++) {
            if (hand || suit) *at++ = suit ? '.' : ' ';
            for (int rank = 14; rank >= 2; rank--) {
                if (deal->remainCards[hand][suit] >> rank & 1) *at++ = "..23456789TJQKA"[rank];
            }
        }
    }
    *at = '\0';
    put(line, "\"deal\":\"N:");
    put(line, text);
    put(line, "\"");
}

void put_list(struct line *line, const char *field, int count, const int *suits, const int *ranks) {
    put(line, ",\"");
    put(line, field);
    put(line, "\":[");
    for (int card = 0; card < count; card++) {
        put(line, card ? ",[" : "[");
        put_number(line, suits[card]);
        put(line, ",");
        put_number(line, ranks[card]);
        put(line, "]");
    }
    put(line, "]");
}

static ddserve_solver *take_idle(void) {
    pthread_mutex_lock(&lock);
    ddserve_solver *solver = idle_count ? idle[--idle_count] : NULL;
    pthread_mutex_unlock(&lock);
    return solver;
}

static void give_back(ddserve_solver *solver) {
    pthread_mutex_lock(&lock);
    bool kept = idle_count < MOST_IDLE;
    if (kept) idle[idle_count++] = solver;
    pthread_mutex_unlock(&lock);
    if (!kept) ddserve_close(solver);
}

/* Whether this solver, if there is one, has a reply. It is kept then, and else closed. */
static bool ask_solver(ddserve_solver *solver, const struct line *line, struct reply *reply) {
    if (!solver) return false;
    reply->at = reply->text;
    if (ddserve_line(solver, line->text, line->length, reply->text, sizeof reply->text) >= 0) {
        give_back(solver);
        return true;
    }
    ddserve_close(solver);
    return false;
}

/* Keeps why there is no reply, and says it once in the life of a program: each call that fails after it would say the same. */
static void keep_failure(int error) {
    pthread_mutex_lock(&lock);
    ddserve_failure(error, failure, sizeof failure);
    is_failing = true;
    if (!is_told) fprintf(stderr, "ddserve: %s\n", failure);
    is_told = true;
    pthread_mutex_unlock(&lock);
}

static void forget_failure(void) {
    if (!is_failing) return;
    pthread_mutex_lock(&lock);
    failure[0] = '\0';
    is_failing = false;
    pthread_mutex_unlock(&lock);
}

void copy_failure(char text[LONGEST_FAILURE]) {
    pthread_mutex_lock(&lock);
    strcpy(text, failure);
    pthread_mutex_unlock(&lock);
}

bool ask(const struct line *line, struct reply *reply) {
    /* One that was idle may have ended meanwhile, or be of the process that this one was forked from. */
    for (ddserve_solver *solver = take_idle(); solver; solver = take_idle()) {
        if (ask_solver(solver, line, reply)) return true;
    }
    ddserve_solver *solver = ddserve_open(entries);
    int error = solver ? 0 : errno;
    bool is_answered = ask_solver(solver, line, reply);
    if (is_answered) forget_failure();
    else keep_failure(error);
    return is_answered;
}

bool next(struct reply *reply, const char *text) {
    size_t length = strlen(text);
    if (strncmp(reply->at, text, length) != 0) return false;
    reply->at += length;
    return true;
}

bool next_number(struct reply *reply, int *number) {
    bool negative = next(reply, "-");
    int digits = 0;
    for (*number = 0; *reply->at >= '0' && *reply->at <= '9' && digits < 9; digits++) *number = 10 * *number + (*reply->at++ - '0');
    if (negative) *number = -*number;
    return digits > 0;
}

void FreeMemory(void) {
    for (ddserve_solver *solver = take_idle(); solver; solver = take_idle()) ddserve_close(solver);
}

/* A lock that another thread holds at a fork would be held for ever in the child. */
static void before_fork(void) { pthread_mutex_lock(&lock); }
static void after_fork(void) { pthread_mutex_unlock(&lock); }

__attribute__((constructor)) static void begin(void) {
    long found = sysconf(_SC_NPROCESSORS_ONLN);
    processors = found < 1 ? 1 : found > MOST_THREADS ? MOST_THREADS : (int)found;
    pthread_atfork(before_fork, after_fork, after_fork);
}

__attribute__((destructor)) static void end(void) { FreeMemory(); }

int thread_count(void) {
    int asked = threads_asked;
    return asked > 0 && asked < processors ? asked : processors;
}

void SetResources(int maxMemoryMB, int maxThreads) {
    threads_asked = maxThreads;
    long bytes = (maxMemoryMB / thread_count() - SOLVER_MB) * 1048576L;
    long found = maxMemoryMB <= 0 ? MOST_ENTRIES : bytes / ENTRY_BYTES;
    entries = found < 1 ? 1 : found > MOST_ENTRIES ? MOST_ENTRIES : (unsigned)found;
    FreeMemory();
}

void SetMaxThreads(int userThreads) { SetResources(0, userThreads); }

/* Of DDS's numbers for kinds of threads: 0 is its own choice, 5 threads of the standard library. */
int SetThreading(int code) { return code == 0 || code == 5 ? RETURN_NO_FAULT : RETURN_THREAD_MISSING; }

struct batch {
    atomic_int index;
    int count;
    int (*one)(void *context, int index);
    void *context;
    atomic_int fault;
};

static void *work(void *of) {
    struct batch *batch = of;
    for (int index = batch->index++; index < batch->count; index = batch->index++) {
        int code = batch->one(batch->context, index);
        int none = RETURN_NO_FAULT;
        if (code != RETURN_NO_FAULT) atomic_compare_exchange_strong(&batch->fault, &none, code);
    }
    return NULL;
}

int for_each(int count, int (*one)(void *context, int index), void *context) {
    struct batch batch = {.count = count, .one = one, .context = context, .fault = RETURN_NO_FAULT};
    pthread_t others[MOST_THREADS];
    int started = 0;
    int wanted = (thread_count() < count ? thread_count() : count) - 1;
    /* Where the system gives no more threads the others do the work. */
    while (started < wanted && pthread_create(&others[started], NULL, work, &batch) == 0) started++;
    work(&batch);
    while (started > 0) pthread_join(others[--started], NULL);
    return batch.fault;
}
