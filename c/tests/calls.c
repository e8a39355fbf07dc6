/* Tests of what no comparison with DDS shows: calls from many threads, after a fork, after FreeMemory, without a program, and par
   where DDS's rule of thumb is another. */
#define _GNU_SOURCE
#include <dds/dll.h>

#include <pthread.h>
#include <stdbool.h>
#include <stdio.h>
#include <stdlib.h>
#include <string.h>
#include <sys/wait.h>
#include <unistd.h>

#define CHECK(fact) \
    do { \
        if (!(fact)) { \
            fprintf(stderr, "calls.c:%d: not so: %s\n", __LINE__, #fact); \
            exit(1); \
        } \
    } while (0)

/* North leads with the ace and two low cards; the queen and the ace of the suit are with South. */
static const struct dealPBN three_cards = {4, 0, {0, 0, 0}, {0, 0, 0}, "N:32... K4... AQ... 65..."};
static const struct ddTableDealPBN record = {"N:J6.72.AQ7643.AJ7 Q9842.Q854.T.K42 AT75.AT9.KJ8.T83 K3.KJ63.952.Q965"};
static const int results[5][4] = {{7, 6, 7, 6}, {6, 7, 6, 7}, {10, 3, 10, 3}, {7, 6, 7, 6}, {9, 3, 9, 3}};

static int is_solved(void) {
    struct futureTricks found;
    memset(&found, 0, sizeof found);
    int code = SolveBoardPBN(three_cards, -1, 3, 1, &found, 0);
    return code == RETURN_NO_FAULT && found.cards == 1 && found.suit[0] == 0 && found.rank[0] == 3 && found.equals[0] == 4 && found.score[0] == 2;
}

static void *solve_often(void *of) {
    for (int at = 0; at < 50; at++) {
        if (!is_solved()) return NULL;
    }
    return of;
}

static void threads(void) {
    pthread_t started[8];
    for (int at = 0; at < 8; at++) CHECK(pthread_create(&started[at], NULL, solve_often, started + 7 - at) == 0);
    for (int at = 0; at < 8; at++) {
        void *all = NULL;
        pthread_join(started[at], &all);
        CHECK(all);
    }
}

static void forks(void) {
#ifdef ALONE
    /* What the library has for the parent is lost in the child, as valgrind sees it. */
    if (getenv("UNDER_VALGRIND")) return;
#endif
    CHECK(is_solved());
    pid_t child = fork();
    if (child == 0) {
        int is_right = is_solved();
        FreeMemory();
        _exit(is_right ? 0 : 1);
    }
    int status = 1;
    CHECK(waitpid(child, &status, 0) == child && status == 0);
    CHECK(is_solved());
}

static void tables(void) {
    struct ddTableResults found;
    struct parResultsDealer par;
    CHECK(CalcDDtablePBN(record, &found) == RETURN_NO_FAULT && memcmp(found.resTable, results, sizeof results) == 0);
    CHECK(DealerPar(&found, &par, 0, 0) == RETURN_NO_FAULT && par.score == 400 && par.number == 1);
    CHECK(strcmp(par.contracts[0], "3N-NS") == 0);
    found.resTable[2][1] = 14;
    CHECK(DealerPar(&found, &par, 0, 0) == RETURN_UNKNOWN_FAULT);
    found.resTable[2][1] = -1;
    CHECK(DealerPar(&found, &par, 0, 0) == RETURN_UNKNOWN_FAULT);
    memset(&found, 0, sizeof found);
    CHECK(DealerPar(&found, &par, 3, 1) == RETURN_NO_FAULT && par.score == 0 && strcmp(par.contracts[0], "pass") == 0);
    CHECK(DealerPar(&found, &par, 4, 1) == RETURN_UNKNOWN_FAULT && DealerPar(&found, &par, 0, 4) == RETURN_UNKNOWN_FAULT);
}

/* A revoke in the play: East has a spade and plays a heart. DDS takes it, and a line of a play does not. */
static void revokes(void) {
    struct dealPBN deal = {4, 0, {0, 0, 0}, {0, 0, 0}, "N:32... K.4.. AQ... 65..."};
    struct playTracePBN play = {4, "S3H4SQS6"};
    struct solvedPlay found;
    memset(&found, 0, sizeof found);
    CHECK(AnalysePlayPBN(deal, play, &found, 0) == RETURN_NO_FAULT && found.number == 5);
    CHECK(found.tricks[0] == 0 && found.tricks[1] == 0 && found.tricks[4] == 0);
    play.cards[2] = 'D';
    CHECK(AnalysePlayPBN(deal, play, &found, 0) == RETURN_PLAY_FAULT);
    play.cards[2] = 'X';
    CHECK(AnalysePlayPBN(deal, play, &found, 0) == RETURN_PLAY_FAULT);
}

/* Sets of hands that are no deal. */
static void texts(void) {
    struct futureTricks found;
    struct dealPBN deal = three_cards;
    strcpy(deal.remainCards, "a hand");
    CHECK(SolveBoardPBN(deal, -1, 3, 1, &found, 0) == RETURN_PBN_FAULT);
    strcpy(deal.remainCards, "N:2.3.4.5.6 A K Q");
    CHECK(SolveBoardPBN(deal, -1, 3, 1, &found, 0) == RETURN_PBN_FAULT);
    strcpy(deal.remainCards, "N:2 3 4 5 6");
    CHECK(SolveBoardPBN(deal, -1, 3, 1, &found, 0) == RETURN_PBN_FAULT);
    strcpy(deal.remainCards, "N");
    CHECK(SolveBoardPBN(deal, -1, 3, 1, &found, 0) == RETURN_ZERO_CARDS);
    char text[80];
    ErrorMessage(RETURN_ZERO_CARDS, text);
    CHECK(strcmp(text, "Zero cards") == 0);
    struct DDSInfo info;
    GetDDSInfo(&info);
    CHECK(info.major == 2 && info.noOfThreads >= 1 && strcmp(info.versionString, "2.9.0") == 0);
}

/* Other resources, and memory that is given back. */
static void resources(void) {
    CHECK(is_solved());
    SetResources(200, 2);
    CHECK(is_solved());
    FreeMemory();
    CHECK(is_solved());
    SetMaxThreads(0);
    CHECK(is_solved());
}

#ifndef ALONE
static bool tells(const char *reason) {
    struct DDSInfo info;
    GetDDSInfo(&info);
    return strstr(info.systemString, reason);
}

/* Without a program each call says that it failed, and the next one tries anew. What stands of it is of the last try. */
static void programs(void) {
    char *program = strdup(getenv("DDSERVE"));
    struct futureTricks found;
    CHECK(!tells("No answers"));
    FreeMemory();
    setenv("DDSERVE", "/nowhere/ddserve", 1);
    CHECK(SolveBoardPBN(three_cards, -1, 3, 1, &found, 0) == RETURN_UNKNOWN_FAULT);
    /* Under valgrind the system's spawn is a fork, which can't tell that there is no such program. */
    CHECK(tells("No answers"));
    CHECK(tells(getenv("UNDER_VALGRIND") ? "ended before its first reply: /nowhere/ddserve" : "(No such file or directory): /nowhere/ddserve"));
    struct dealPBN several = three_cards;
    several.first = 1;
    CHECK(SolveBoardPBN(several, -1, 3, 0, &found, 0) == RETURN_UNKNOWN_FAULT && found.cards == 0);
    setenv("DDSERVE", "/bin/true", 1);
    CHECK(SolveBoardPBN(three_cards, -1, 3, 1, &found, 0) == RETURN_UNKNOWN_FAULT);
    CHECK(tells("ended before its first reply: /bin/true") && !tells("/nowhere/ddserve"));
    setenv("DDSERVE", program, 1);
    free(program);
    CHECK(is_solved() && !tells("No answers"));
}
#endif

int main(void) {
    SetMaxThreads(0);
    threads();
    forks();
    tables();
    revokes();
    texts();
    resources();
#ifndef ALONE
    programs();
#endif
    printf("calls: threads, forks, tables, revokes, texts and resources\n");
    return 0;
}
