/* What a call of SolveBoard costs beyond its line: the same positions as bare lines to a solver, and as calls, in turns. Words: the
   runs. It prints the least time of a line and of a call, in microseconds, and ends with 1 where a call takes 15 more. */
#define _POSIX_C_SOURCE 200809L
#include "../ddserve.h"
#include <dds/dll.h>

#include <stdio.h>
#include <stdlib.h>
#include <string.h>
#include <time.h>

#define POSITIONS 500
#define LIMIT 15.0

static struct deal deals[POSITIONS];
static char lines[POSITIONS][256];

static double now(void) {
    struct timespec time;
    clock_gettime(CLOCK_MONOTONIC, &time);
    return (double)time.tv_sec * 1e6 + (double)time.tv_nsec / 1e3;
}

/* Four hands of four cards, drawn from a fixed seed, and their line. */
static void draw(int at) {
    struct deal *deal = &deals[at];
    int left[52];
    for (int card = 0; card < 52; card++) left[card] = card;
    for (int card = 0; card < 16; card++) {
        int chosen = card + rand() % (52 - card), held = left[chosen];
        left[chosen] = left[card];
        left[card] = held;
        deal->remainCards[card % 4][held / 13] |= 4u << held % 13;
    }
    deal->trump = at % 5;
    deal->first = at % 4;
    int length = sprintf(lines[at], "{\"do\":\"solve\",\"deal\":\"N:");
    for (int place = 0; place < 16; place++) {
        if (place) lines[at][length++] = place % 4 ? '.' : ' ';
        for (int rank = 14; rank >= 2; rank--) {
            if (deal->remainCards[place / 4][place % 4] >> rank & 1) lines[at][length++] = "..23456789TJQKA"[rank];
        }
    }
    sprintf(lines[at] + length, "\",\"trump\":%d,\"first\":%d,\"solutions\":3}", deal->trump, deal->first);
}

static double time_lines(ddserve_solver *solver) {
    char reply[DDSERVE_LONGEST_REPLY + 1];
    double begin = now();
    for (int at = 0; at < POSITIONS; at++) {
        if (ddserve_line(solver, lines[at], strlen(lines[at]), reply, sizeof reply) < 0) exit(2);
    }
    return (now() - begin) / POSITIONS;
}

static double time_calls(void) {
    struct futureTricks found;
    double begin = now();
    for (int at = 0; at < POSITIONS; at++) {
        if (SolveBoard(deals[at], -1, 3, 1, &found, 0) != RETURN_NO_FAULT) exit(2);
    }
    return (now() - begin) / POSITIONS;
}

int main(int count, char **words) {
    int runs = count > 1 ? atoi(words[1]) : 20;
    double line = 1e9, call = 1e9;
    ddserve_solver *solver = ddserve_open(65536);
    if (!solver) return 2;
    srand(37);
    for (int at = 0; at < POSITIONS; at++) draw(at);
    for (int run = 0; run < runs; run++) {
        double lines_now = time_lines(solver), calls_now = time_calls();
        line = lines_now < line ? lines_now : line;
        call = calls_now < call ? calls_now : call;
    }
    ddserve_close(solver);
    printf("cost: a line of four cards a hand %.1f microseconds, SolveBoard %.1f, which is %.1f more\n", line, call, call - line);
    return call - line > LIMIT;
}
