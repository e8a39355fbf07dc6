/* Solvers of the proved library: a line is answered on the thread that asks. */
#include "ddserve.h"
#include "ddserve_start.h"

#include <errno.h>
#include <stdbool.h>
#include <stdint.h>
#include <stdio.h>
#include <stdlib.h>
#include <string.h>
#include <sys/types.h>
#include <unistd.h>

/* Of crates/ddserve_c, which alone reads and writes it. It is not open where all of it is zero. */
struct ddserve_c_solver {
    bool is_open;
    void *held;
};

bool ddserve_c_open(struct ddserve_c_solver *solver);
int64_t ddserve_c_line(struct ddserve_c_solver *solver, const uint8_t *line, size_t length, uint8_t *reply, size_t capacity);
void ddserve_c_close(struct ddserve_c_solver *solver);

struct ddserve_solver {
    struct ddserve_c_solver solver;
    pid_t owner; /* who opened it: after a fork it is still the parent's */
};

ddserve_solver *ddserve_open(unsigned entries) {
    /* Its cache has the size that the library gives it, and there is no table behind. */
    (void)entries;
    ddserve_solver *solver = calloc(1, sizeof *solver);
    if (solver && ddserve_c_open(&solver->solver)) {
        solver->owner = getpid();
        return solver;
    }
    free(solver);
    errno = ENOMEM;
    return NULL;
}

/* The reply goes into a buffer that shares bytes with the line, which the library may not be given so. */
static long answer_in_place(ddserve_solver *solver, const uint8_t *line, size_t length, uint8_t *reply, size_t capacity) {
    uint8_t own[DDSERVE_LONGEST_REPLY + 1];
    int64_t count = ddserve_c_line(&solver->solver, line, length, own, capacity < sizeof own ? capacity : sizeof own);
    if (count >= 0) memcpy(reply, own, (size_t)count + 1);
    return (long)count;
}

long ddserve_line(ddserve_solver *solver, const char *line, size_t length, char *reply, size_t capacity) {
    if (solver->owner != getpid()) return DDSERVE_FORKED;
    /* The library wants an address of no bytes too. */
    uint8_t none[1];
    const uint8_t *asked = length ? (const uint8_t *)line : none;
    uint8_t *told = capacity ? (uint8_t *)reply : none;
    uintptr_t line_at = (uintptr_t)asked, reply_at = (uintptr_t)told;
    if (line_at < reply_at + capacity && reply_at < line_at + length) return answer_in_place(solver, asked, length, told, capacity);
    return (long)ddserve_c_line(&solver->solver, asked, length, told, capacity);
}

void ddserve_close(ddserve_solver *solver) {
    if (!solver) return;
    /* In a process that was forked from the owner's the library's memory is let go. */
    if (solver->owner == getpid()) ddserve_c_close(&solver->solver);
    free(solver);
}

void ddserve_failure(int error, char *text, size_t size) {
    snprintf(text, size, error ? "there is no memory for a solver" : "the library has no reply");
}
