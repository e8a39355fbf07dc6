/* DDS's calls for boards, tables and plays. Each makes lines of its question and a structure of their replies. */
#include "dds_lines.h"

#include <stdlib.h>
#include <string.h>

/* The bits of the ranks 2 to 14. */
#define RANKS 0x7ffcu

/* The cards of one hand: its four suits beside one another, counted at once. */
static int cards_of(const unsigned hand[DDS_SUITS]) {
    unsigned long long cards = 0;
    for (int suit = 0; suit < DDS_SUITS; suit++) cards = cards << 16 | (hand[suit] & RANKS);
    return __builtin_popcountll(cards);
}

static int cards_in_hands(const struct deal *deal) {
    int count = 0;
    for (int hand = 0; hand < DDS_HANDS; hand++) count += cards_of(deal->remainCards[hand]);
    return count;
}

/* They follow from the number of cards, as with DDS, and not from what stands in currentTrickRank. */
int cards_on_trick(const struct deal *deal) { return (52 - cards_in_hands(deal)) % 4; }

int tricks_left(const struct deal *deal) { return (cards_in_hands(deal) + 3) / 4; }

/* Each number by itself, in DDS's order. */
static int range_fault(const struct deal *deal, int target, int solutions, int mode) {
    if (target < -1) return RETURN_TARGET_WRONG_LO;
    if (target > 13) return RETURN_TARGET_WRONG_HI;
    if (solutions < 1) return RETURN_SOLNS_WRONG_LO;
    if (solutions > 3) return RETURN_SOLNS_WRONG_HI;
    if (mode < 0) return RETURN_MODE_WRONG_LO;
    if (mode > 2) return RETURN_MODE_WRONG_HI;
    if (deal->trump < 0 || deal->trump > 4) return RETURN_TRUMP_WRONG;
    if (deal->first < 0 || deal->first > 3) return RETURN_FIRST_WRONG;
    for (int card = 0; card < 3; card++) {
        int rank = deal->currentTrickRank[card], suit = deal->currentTrickSuit[card];
        if (rank == 0) continue;
        if (rank < 2 || rank > 14 || suit < 0 || suit > 3) return RETURN_SUIT_OR_RANK;
        if (card > 0 && deal->currentTrickRank[card - 1] == 0) return RETURN_SUIT_OR_RANK;
    }
    for (int place = 0; place < DDS_HANDS * DDS_SUITS; place++) {
        unsigned cards = deal->remainCards[place / DDS_SUITS][place % DDS_SUITS];
        if (cards != 0 && (cards < 4 || cards > 0x7fff)) return RETURN_SUIT_OR_RANK;
    }
    return RETURN_NO_FAULT;
}

static bool are_hands_even(const struct deal *deal) {
    int played = cards_on_trick(deal), counts[DDS_HANDS] = {0};
    for (int hand = 0; hand < DDS_HANDS; hand++) {
        counts[(deal->first + hand) % 4] += hand < played;
        counts[hand] += cards_of(deal->remainCards[hand]);
    }
    return counts[1] == counts[0] && counts[2] == counts[0] && counts[3] == counts[0];
}

/* Whether a card of the trick is in a hand too. */
static bool is_played_card_held(const struct deal *deal, int on_trick) {
    for (int card = 0; card < on_trick; card++) {
        int suit = deal->currentTrickSuit[card], rank = deal->currentTrickRank[card];
        for (int hand = 0; rank && hand < DDS_HANDS; hand++) {
            if (deal->remainCards[hand][suit] >> rank & 1) return true;
        }
    }
    return false;
}

static bool is_card_twice(const struct deal *deal) {
    for (int suit = 0; suit < DDS_SUITS; suit++) {
        unsigned seen = 0;
        for (int hand = 0; hand < DDS_HANDS; hand++) {
            unsigned cards = deal->remainCards[hand][suit] & RANKS;
            if (seen & cards) return true;
            seen |= cards;
        }
    }
    return false;
}

/* What DDS lets pass, and no position has: a trick with too few cards, or with one card twice. */
static int trick_fault(const struct deal *deal, int on_trick) {
    const int *suits = deal->currentTrickSuit, *ranks = deal->currentTrickRank;
    for (int card = 0; card < on_trick; card++) {
        if (ranks[card] == 0) return RETURN_SUIT_OR_RANK;
        for (int other = 0; other < card; other++) {
            if (suits[other] == suits[card] && ranks[other] == ranks[card]) return RETURN_DUPLICATE_CARDS;
        }
    }
    return RETURN_NO_FAULT;
}

int board_fault(const struct deal *deal, int target, int solutions, int mode) {
    int fault = range_fault(deal, target, solutions, mode);
    if (fault != RETURN_NO_FAULT) return fault;
    int cards = cards_in_hands(deal), on_trick = cards_on_trick(deal);
    if (cards == 0) return RETURN_ZERO_CARDS;
    if (cards > 52) return RETURN_TOO_MANY_CARDS;
    if (tricks_left(deal) < target) return RETURN_TARGET_TOO_HIGH;
    if (!are_hands_even(deal)) return RETURN_CARD_COUNT;
    if (is_played_card_held(deal, on_trick)) return RETURN_PLAYED_CARD;
    if (is_card_twice(deal)) return RETURN_DUPLICATE_CARDS;
    return trick_fault(deal, on_trick);
}

static int place_in(const char *list, char sign) {
    const char *found = sign ? strchr(list, sign) : NULL;
    return found ? (int)(found - list) : -1;
}

/* A letter's rank, or less than 2. */
static int rank_of(char sign) {
    int upper = place_in("..23456789TJQKA", sign);
    return upper >= 2 ? upper : place_in("..........tjqka", sign);
}

bool read_pbn(const char *text, unsigned cards[DDS_HANDS][DDS_SUITS]) {
    memset(cards, 0, sizeof(unsigned) * DDS_HANDS * DDS_SUITS);
    int at = 0;
    while (at < 3 && place_in("NESWnesw", text[at]) < 0 && text[at]) at++;
    if (at == 3 || !text[at]) return false;
    int hand = place_in("NESWnesw", text[at]) % 4, hands = 1, suit = 0;
    /* The letter has a colon behind it. */
    if (!text[at + 1]) return true;
    for (at += 2; at < 80 && text[at]; at++) {
        if (text[at] == '.') {
            suit++;
        } else if (text[at] == ' ') {
            hand = (hand + 1) % 4;
            hands++;
            suit = 0;
        } else if (rank_of(text[at]) >= 2) {
            if (suit >= DDS_SUITS || hands > DDS_HANDS) return false;
            cards[hand][suit] |= 1u << rank_of(text[at]);
        }
    }
    return true;
}

bool read_deal(const struct dealPBN *text, struct deal *deal) {
    deal->trump = text->trump;
    deal->first = text->first;
    memcpy(deal->currentTrickSuit, text->currentTrickSuit, sizeof deal->currentTrickSuit);
    memcpy(deal->currentTrickRank, text->currentTrickRank, sizeof deal->currentTrickRank);
    return read_pbn(text->remainCards, deal->remainCards);
}

/* A question of a position; a target of less than 0 is none. */
static void put_position(struct line *line, const struct deal *deal, int solutions, int target) {
    int on_trick = cards_on_trick(deal);
    put(line, "{\"do\":\"solve\",");
    put_cards(line, deal);
    put(line, ",\"trump\":");
    put_number(line, deal->trump);
    put(line, ",\"first\":");
    put_number(line, deal->first);
    if (on_trick) put_list(line, "played", on_trick, deal->currentTrickSuit, deal->currentTrickRank);
    put(line, ",\"solutions\":");
    put_number(line, solutions);
    if (target >= 0) {
        put(line, ",\"target\":");
        put_number(line, target);
    }
    put(line, "}");
}

static bool next_class(struct reply *reply, struct futureTricks *found) {
    int at = found->cards++;
    return next_number(reply, &found->equals[at]) && next(reply, ",\"rank\":") && next_number(reply, &found->rank[at]) &&
           next(reply, ",\"score\":") && next_number(reply, &found->score[at]) && next(reply, ",\"suit\":") &&
           next_number(reply, &found->suit[at]) && next(reply, "}");
}

static int ask_position(const struct deal *deal, int solutions, int target, struct futureTricks *found) {
    struct line line = {0};
    struct reply reply;
    put_position(&line, deal, solutions, target);
    if (!ask(&line, &reply) || !next(&reply, "{\"cards\":[")) return RETURN_UNKNOWN_FAULT;
    found->nodes = 0;
    found->cards = 0;
    while (next(&reply, found->cards ? ",{\"equals\":" : "{\"equals\":")) {
        if (found->cards == 13 || !next_class(&reply, found)) return RETURN_UNKNOWN_FAULT;
    }
    return next(&reply, "]}") ? RETURN_NO_FAULT : RETURN_UNKNOWN_FAULT;
}

int tricks_of(const struct deal *deal) {
    struct futureTricks found;
    return ask_position(deal, 1, -1, &found) == RETURN_NO_FAULT && found.cards ? found.score[0] : -1;
}

/* Lists the classes of equal cards that the hand to play has in one suit. */
static void list_classes_of(const struct deal *deal, int hand, int suit, struct futureTricks *found) {
    unsigned others = 0;
    for (int other = 0; other < DDS_HANDS; other++) others |= other == hand ? 0 : deal->remainCards[other][suit];
    for (int card = 0, on_trick = cards_on_trick(deal); card < on_trick; card++) {
        others |= deal->currentTrickSuit[card] == suit ? 1u << deal->currentTrickRank[card] : 0;
    }
    bool goes_on = false;
    for (int rank = 14; rank >= 2; rank--) {
        bool is_held = deal->remainCards[hand][suit] >> rank & 1;
        if (is_held && goes_on) {
            found->equals[found->cards - 1] |= 1 << rank;
        } else if (is_held) {
            found->suit[found->cards] = suit;
            found->rank[found->cards] = rank;
            found->equals[found->cards++] = 0;
        }
        goes_on = is_held || (goes_on && !(others >> rank & 1));
    }
}

static void list_classes(const struct deal *deal, struct futureTricks *found) {
    int on_trick = cards_on_trick(deal), hand = (deal->first + on_trick) % 4, led = deal->currentTrickSuit[0];
    bool follows = on_trick && deal->remainCards[hand][led] & RANKS;
    found->nodes = 0;
    found->cards = 0;
    for (int suit = 0; suit < DDS_SUITS; suit++) {
        if (!follows || suit == led) list_classes_of(deal, hand, suit, found);
    }
}

static int solve(const struct deal *deal, int target, int solutions, int mode, struct futureTricks *found) {
    int fault = board_fault(deal, target, solutions, mode);
    if (fault != RETURN_NO_FAULT) return fault;
    bool is_last_trick = cards_in_hands(deal) <= 4;
    if (mode == 0 && !is_last_trick) {
        list_classes(deal, found);
        found->score[0] = -2;
        if (found->cards == 1) return RETURN_NO_FAULT;
    }
    /* Of the last trick, and of all cards, the score is told whatever the target. */
    bool has_target = target >= 0 && solutions < 3 && !is_last_trick;
    fault = ask_position(deal, solutions, has_target ? target : -1, found);
    if (fault != RETURN_NO_FAULT) {
        /* The cards that were listed have no scores. */
        found->cards = 0;
        return fault;
    }
    if (found->cards == 0) found->score[0] = target > 1 ? -1 : 0;
    if (is_last_trick && target == 0 && solutions < 3) found->score[0] = 0;
    return RETURN_NO_FAULT;
}

int SolveBoard(struct deal dl, int target, int solutions, int mode, struct futureTricks *futp, int threadIndex) {
    if (threadIndex < 0 || threadIndex >= thread_count()) return RETURN_THREAD_INDEX;
    return solve(&dl, target, solutions, mode, futp);
}

int SolveBoardPBN(struct dealPBN dlpbn, int target, int solutions, int mode, struct futureTricks *futp, int thrId) {
    struct deal deal;
    return read_deal(&dlpbn, &deal) ? SolveBoard(deal, target, solutions, mode, futp, thrId) : RETURN_PBN_FAULT;
}

struct board_batch {
    const struct boards *boards;
    struct solvedBoards *solved;
};

static int solve_one(void *of, int index) {
    struct board_batch *batch = of;
    const struct boards *boards = batch->boards;
    struct futureTricks found;
    memset(&found, 0, sizeof found);
    int fault = solve(&boards->deals[index], boards->target[index], boards->solutions[index], boards->mode[index], &found);
    if (fault == RETURN_NO_FAULT) batch->solved->solvedBoard[index] = found;
    return fault;
}

int SolveAllChunksBin(struct boards *bop, struct solvedBoards *solvedp, int chunkSize) {
    if (chunkSize < 1) return RETURN_CHUNK_SIZE;
    if (bop->noOfBoards > MAXNOOFBOARDS) return RETURN_TOO_MANY_BOARDS;
    for (int board = 0; board < MAXNOOFBOARDS; board++) solvedp->solvedBoard[board].cards = 0;
    struct board_batch batch = {bop, solvedp};
    solvedp->noOfBoards = bop->noOfBoards;
    return for_each(bop->noOfBoards, solve_one, &batch);
}

/* The same boards with their deals read. Returns success or a fault. */
static int read_boards(const struct boardsPBN *texts, struct boards *boards) {
    boards->noOfBoards = texts->noOfBoards;
    if (texts->noOfBoards > MAXNOOFBOARDS) return RETURN_TOO_MANY_BOARDS;
    for (int board = 0; board < texts->noOfBoards; board++) {
        boards->target[board] = texts->target[board];
        boards->solutions[board] = texts->solutions[board];
        boards->mode[board] = texts->mode[board];
        if (!read_deal(&texts->deals[board], &boards->deals[board])) return RETURN_PBN_FAULT;
    }
    return RETURN_NO_FAULT;
}

int SolveAllBoards(struct boardsPBN *bop, struct solvedBoards *solvedp) {
    struct boards *boards = malloc(sizeof *boards);
    if (!boards) return RETURN_UNKNOWN_FAULT;
    int fault = read_boards(bop, boards);
    if (fault == RETURN_NO_FAULT) fault = SolveAllChunksBin(boards, solvedp, 1);
    free(boards);
    return fault;
}

int SolveAllChunksPBN(struct boardsPBN *bop, struct solvedBoards *solvedp, int chunkSize) {
    return chunkSize < 1 ? RETURN_CHUNK_SIZE : SolveAllBoards(bop, solvedp);
}

int SolveAllChunks(struct boardsPBN *bop, struct solvedBoards *solvedp, int chunkSize) {
    return SolveAllChunksPBN(bop, solvedp, chunkSize);
}
