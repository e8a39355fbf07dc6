/* A process of the program, whose input and output are the stream. */
#define _GNU_SOURCE
#include "ddserve_start.h"

#include <errno.h>
#include <signal.h>
#include <spawn.h>
#include <stdio.h>
#include <stdlib.h>
#include <string.h>
#include <sys/wait.h>
#include <unistd.h>

extern char **environ;

/* The program that the variable names, or NULL where it names none. */
static const char *named_program(void) {
    const char *name = getenv("DDSERVE");
    return name && *name ? name : NULL;
}

/* Starts the program with this socket as its input and its output. Returns 0 or an error's number. */
static int spawn(pid_t *program, int stream, unsigned entries) {
    const char *name = named_program();
    char number[16];
    snprintf(number, sizeof number, "%u", entries);
    char *words[] = {(char *)(name ? name : "ddserve"), "solve", entries ? "--entries" : NULL, number, NULL};
    posix_spawn_file_actions_t actions;
    posix_spawnattr_t attributes;
    sigset_t none, defaults;
    /* It begins with no signal blocked, and with those at their defaults that a host often ignores. */
    sigemptyset(&none);
    sigemptyset(&defaults);
    sigaddset(&defaults, SIGPIPE);
    int error = posix_spawn_file_actions_init(&actions);
    if (error) return error;
    error = posix_spawnattr_init(&attributes);
    if (error) {
        posix_spawn_file_actions_destroy(&actions);
        return error;
    }
    error = posix_spawn_file_actions_adddup2(&actions, stream, STDIN_FILENO);
    if (!error) error = posix_spawn_file_actions_adddup2(&actions, stream, STDOUT_FILENO);
    if (!error) error = posix_spawnattr_setsigmask(&attributes, &none);
    if (!error) error = posix_spawnattr_setsigdefault(&attributes, &defaults);
    if (!error) error = posix_spawnattr_setflags(&attributes, POSIX_SPAWN_SETSIGMASK | POSIX_SPAWN_SETSIGDEF);
    if (!error) error = posix_spawnp(program, words[0], &actions, &attributes, words, environ);
    posix_spawnattr_destroy(&attributes);
    posix_spawn_file_actions_destroy(&actions);
    return error;
}

int ddserve_start(pid_t *program, int stream, unsigned entries) {
    int error = spawn(program, stream, entries);
    close(stream);
    return error;
}

void ddserve_stop(pid_t program, bool is_own) {
    /* It has nothing to lose, and may be within a search. Where the host has waited for it already it is no child any more, and its
       number may be another's. */
    if (!is_own || waitpid(program, NULL, WNOHANG) != 0) return;
    kill(program, SIGKILL);
    while (waitpid(program, NULL, 0) < 0 && errno == EINTR) {}
}

void ddserve_failure(int error, char *text, size_t size) {
    const char *name = named_program();
    /* The name comes last, since it may be long. */
    const char *whence = name ? ", which DDSERVE names" : ", from the PATH, since DDSERVE is not set";
    if (!name) name = "ddserve";
    if (error) snprintf(text, size, "can't start the program (%s): %s%s", strerror(error), name, whence);
    else snprintf(text, size, "the program ended before its first reply: %s%s", name, whence);
}
