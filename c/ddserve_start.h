/* What answers at the other end of a solver's stream: a process of the program (start_program.c). */
#ifndef DDSERVE_START_H
#define DDSERVE_START_H

#include <stdbool.h>
#include <stddef.h>
#include <sys/types.h>

/* Starts it with its end of the stream, which it takes over. Returns 0 or an error's number. */
int ddserve_start(pid_t *program, int stream, unsigned entries);

/* Ends it, after the solver's end of the stream was closed. In a process that was forked from the owner's it is let go. */
void ddserve_stop(pid_t program, bool is_own);

/* Writes why there is no solver, in words, by the number of the error that `ddserve_open` left; or, by 0, that one was opened and
   ended before its first reply. A longer text is cut off. */
void ddserve_failure(int error, char *text, size_t size);

#endif
