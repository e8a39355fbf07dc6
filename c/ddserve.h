/* Double-dummy answers of ddserve for C and C++: a line in, its reply out. Lines and replies are those of docs/PROTOCOL.md.

   A solver is a process of the program `ddserve` with a table of its own. The program is the one that the variable DDSERVE names,
   or else the one on the PATH. In the static form it is a cache in memory, and a line is answered on the thread that asks. Any number
   of solvers may be open, in any threads. One solver serves one thread at a time. */
#ifndef DDSERVE_H
#define DDSERVE_H

#include <stddef.h>

/* These alone are the library's names; its own parts share others, which stay hidden (-fvisibility=hidden). */
#ifdef __GNUC__
#pragma GCC visibility push(default)
#endif
#ifdef __cplusplus
extern "C" {
#endif

typedef struct ddserve_solver ddserve_solver;

/* No reply has more bytes, its NUL not counted. */
#define DDSERVE_LONGEST_REPLY 1024

enum {
    DDSERVE_ENDED = -1,   /* the program ended before its reply. Close the solver and open another */
    DDSERVE_NO_ROOM = -2, /* the reply and its NUL have more bytes than the buffer: it is lost */
    DDSERVE_NO_LINE = -3, /* the line has a line feed */
    DDSERVE_FORKED = -4   /* the solver is that of the parent of this process */
};

/* A solver whose table keeps so many shapes, 1 to 65,536, or 0 for the program's default; the static form has no table. NULL where the
   program can't be started, or where there is no memory, and errno says why. */
ddserve_solver *ddserve_open(unsigned entries);

/* Answers a line of so many bytes, without a line feed: writes the reply as a text that ends with NUL, and returns its length, or
   one of the numbers above. A buffer of DDSERVE_LONGEST_REPLY + 1 bytes is enough. It waits for as long as the search takes. */
long ddserve_line(ddserve_solver *solver, const char *line, size_t length, char *reply, size_t capacity);

/* Ends the solver. NULL is no solver, and nothing is done. */
void ddserve_close(ddserve_solver *solver);

#ifdef __cplusplus
}
#endif
#ifdef __GNUC__
#pragma GCC visibility pop
#endif

#endif
