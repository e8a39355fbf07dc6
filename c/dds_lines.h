/* What the calls of `dds_compat` share: lines for the program, the solvers that answer them, and threads over many boards. */
#ifndef DDS_LINES_H
#define DDS_LINES_H

#include "dds/dll.h"
#include "ddserve.h"

#include <stdbool.h>

/* A line that is being written. The longest is a play of 52 cards, of less than 600 bytes. */
struct line {
    size_t length;
    char text[1024];
};

/* A reply that is being read. */
struct reply {
    const char *at;
    char text[DDSERVE_LONGEST_REPLY + 1];
};

void put(struct line *line, const char *text);
void put_number(struct line *line, int number);
void put_cards(struct line *line, const struct deal *deal); /* the field `deal` */
void put_list(struct line *line, const char *field, int count, const int *suits, const int *ranks);

/* The reply to a line, of an idle solver or a new one: whether there is one. The first time that there is none, standard error says
   why. */
bool ask(const struct line *line, struct reply *reply);

/* A copy of the reason why the last new solver had no reply. It is empty where that one had one. */
#define LONGEST_FAILURE 512
void copy_failure(char text[LONGEST_FAILURE]);

/* Whether the reply goes on with this text: then it goes on behind it. */
bool next(struct reply *reply, const char *text);
/* The same with a number. */
bool next_number(struct reply *reply, int *number);

/* Calls `one` for each index below `count`, on as many threads as are set. The first return code that is no success, or success. */
int for_each(int count, int (*one)(void *context, int index), void *context);

/* How many threads are set: all processors where none were asked for. */
int thread_count(void);

/* What is wrong with a question, as SolveBoard tells it, or success; and how many cards lie on its trick. */
int board_fault(const struct deal *deal, int target, int solutions, int mode);
int cards_on_trick(const struct deal *deal);
int tricks_left(const struct deal *deal);

/* The hands of a text of PBN: whether it is one. */
bool read_pbn(const char *text, unsigned cards[DDS_HANDS][DDS_SUITS]);
bool read_deal(const struct dealPBN *text, struct deal *deal);

/* The tricks of the side to play in a position that has no fault; less than 0 where there is no reply. */
int tricks_of(const struct deal *deal);

#endif
