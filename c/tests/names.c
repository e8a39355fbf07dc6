/* A program with functions of its own that have names of the library's own: neither calls the other's. It prints how many were called,
   and the tricks of a position. */
#include <dds/dll.h>

#include <stdio.h>
#include <string.h>

static int called;

#define OWN(name) \
    int name(void); \
    int name(void) { return ++called; }

OWN(ask)
OWN(board_fault)
OWN(cards_on_trick)
OWN(for_each)
OWN(next)
OWN(next_number)
OWN(put)
OWN(put_cards)
OWN(put_list)
OWN(put_number)
OWN(read_deal)
OWN(read_pbn)
OWN(thread_count)
OWN(tricks_left)
OWN(tricks_of)

int main(void) {
    struct dealPBN deal = {4, 0, {0, 0, 0}, {0, 0, 0}, "N:32... K4... AQ... 65..."};
    struct futureTricks found;
    memset(&found, 0, sizeof found);
    int code = SolveBoardPBN(deal, -1, 3, 1, &found, 0);
    printf("%d %d %d\n", called, code, found.score[0]);
    return 0;
}
