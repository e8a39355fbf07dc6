/* A library to be loaded before the program's own (LD_PRELOAD), which refuses memory: of what the program asks for by malloc and
   realloc as many as TIMES says (1) from the allocation on whose number REFUSED is, and each from the number SINCE on; and, once
   the file OUT is there, each of at least LEAST bytes, those of the C library's own threads too, where SECONDS is given for so long
   after the first of these. */
#define _GNU_SOURCE
#include <errno.h>
#include <stdlib.h>
#include <time.h>
#include <unistd.h>

static long count, refused = -1, times, since, least, lasting, began;
static char *out;
extern void *__libc_malloc(size_t), *__libc_calloc(size_t, size_t), *__libc_realloc(void *, size_t), *__libc_memalign(size_t, size_t);

static long number(const char *name) { char *text = getenv(name); return text ? atol(text) : 0; }

static void look(void) {
    if (refused < 0) { refused = number("REFUSED"); times = number("TIMES"); since = number("SINCE"); least = number("LEAST"); lasting = number("SECONDS") * 1000000000; out = getenv("OUT"); }
}

/* Is memory out for so many bytes? */
static int is_out(size_t size) {
    look();
    if (!out || size < least || access(out, F_OK)) return 0;
    if (!lasting) return 1;
    struct timespec time;
    clock_gettime(CLOCK_MONOTONIC, &time);
    long now = time.tv_sec * 1000000000 + time.tv_nsec, never = 0;
    __atomic_compare_exchange_n(&began, &never, now, 0, __ATOMIC_SEQ_CST, __ATOMIC_SEQ_CST);
    return now - __atomic_load_n(&began, __ATOMIC_SEQ_CST) < lasting;
}

static int is_refused(size_t size) {
    look();
    long now = __atomic_add_fetch(&count, 1, __ATOMIC_RELAXED);
    return (refused && now >= refused && now < refused + (times ? times : 1)) || (since && now >= since) || is_out(size);
}

void *malloc(size_t size) {
    if (is_refused(size)) { errno = ENOMEM; return NULL; }
    return __libc_malloc(size);
}

void *calloc(size_t count, size_t size) {
    if (is_out(count * size)) { errno = ENOMEM; return NULL; }
    return __libc_calloc(count, size);
}

void *realloc(void *old, size_t size) {
    if (is_refused(size)) { errno = ENOMEM; return NULL; }
    return __libc_realloc(old, size);
}

void *memalign(size_t aligned, size_t size) {
    if (is_out(size)) { errno = ENOMEM; return NULL; }
    return __libc_memalign(aligned, size);
}

void *aligned_alloc(size_t aligned, size_t size) { return memalign(aligned, size); }

int posix_memalign(void **place, size_t aligned, size_t size) {
    void *got = memalign(aligned, size);
    if (!got) return ENOMEM;
    *place = got;
    return 0;
}
