/* DDS's calls for plays. */
#include "dds_lines.h"

#include <stdlib.h>
#include <string.h>

/* The fault of a line whose play has a card that does not follow suit. DDS takes such plays. */
#define REVOKE 25

/* A play as it goes: the position, and what declarer's side has taken. */
struct course {
    struct deal at;
    int first; /* the hand that led at the start; its opponents are declarer's side */
    int taken;
};

static bool is_better(const struct deal *deal, int card, int best) {
    const int *suits = deal->currentTrickSuit, *ranks = deal->currentTrickRank;
    return suits[card] == suits[best] ? ranks[card] > ranks[best] : suits[card] == deal->trump;
}

/* The trick of three cards in the deal and this fourth one goes to its winner. */
static void end_trick(struct course *course, int suit, int rank) {
    struct deal *deal = &course->at;
    int best = 0;
    for (int card = 1; card < 3; card++) best = is_better(deal, card, best) ? card : best;
    int best_suit = deal->currentTrickSuit[best], best_rank = deal->currentTrickRank[best];
    if (suit == best_suit ? rank > best_rank : suit == deal->trump) best = 3;
    deal->first = (deal->first + best) % 4;
    course->taken += deal->first % 2 != course->first % 2;
    memset(deal->currentTrickRank, 0, sizeof deal->currentTrickRank);
}

/* Whether the hand to play has this card: then it is played. */
static bool play_card(struct course *course, int suit, int rank) {
    struct deal *deal = &course->at;
    int played = cards_on_trick(deal);
    unsigned *holding = &deal->remainCards[(deal->first + played) % 4][suit];
    if (!(*holding >> rank & 1)) return false;
    *holding &= ~(1u << rank);
    if (played == 3) {
        end_trick(course, suit, rank);
    } else {
        deal->currentTrickSuit[played] = suit;
        deal->currentTrickRank[played] = rank;
    }
    return true;
}

/* What declarer's side takes in all from here on; less than 0 where there is no reply. */
static int tricks_from(const struct course *course) {
    int rest = tricks_of(&course->at);
    int to_play = (course->at.first + cards_on_trick(&course->at)) % 4;
    if (rest < 0) return rest;
    return course->taken + (to_play % 2 != course->first % 2 ? rest : tricks_left(&course->at) - rest);
}

/* A play card by card, each position a line of its own. */
static int trace_by_positions(const struct deal *deal, int count, const struct playTraceBin *play, struct solvedPlay *solved) {
    struct course course = {*deal, deal->first, 0};
    for (int card = 0; card <= count; card++) {
        if (card > 0 && !play_card(&course, play->suit[card - 1], play->rank[card - 1])) return RETURN_PLAY_FAULT;
        solved->tricks[card] = tricks_from(&course);
        if (solved->tricks[card] < 0) return RETURN_UNKNOWN_FAULT;
    }
    return RETURN_NO_FAULT;
}

/* The line of a play from the start of its first trick: the cards on that trick go back into their hands, and come first. */
static void put_play(struct line *line, struct deal deal, int count, const struct playTraceBin *play) {
    int on_trick = cards_on_trick(&deal), suits[3 + 52], ranks[3 + 52];
    for (int card = 0; card < on_trick; card++) {
        suits[card] = deal.currentTrickSuit[card];
        ranks[card] = deal.currentTrickRank[card];
        deal.remainCards[(deal.first + card) % 4][suits[card]] |= 1u << ranks[card];
    }
    memcpy(suits + on_trick, play->suit, (size_t)count * sizeof *suits);
    memcpy(ranks + on_trick, play->rank, (size_t)count * sizeof *ranks);
    put(line, "{\"do\":\"play\",");
    put_cards(line, &deal);
    put(line, ",\"trump\":");
    put_number(line, deal.trump);
    put(line, ",\"first\":");
    put_number(line, deal.first);
    put_list(line, "cards", on_trick + count, suits, ranks);
    put(line, "}");
}

static int read_fault(struct reply *reply) {
    int number;
    return next(reply, "{\"fault\":") && next_number(reply, &number) ? number : 0;
}

/* The trace after so many cards, the first number that before the first of them. */
static int trace(const struct deal *deal, int count, const struct playTraceBin *play, struct solvedPlay *solved) {
    struct line line = {0};
    struct reply reply;
    put_play(&line, *deal, count, play);
    if (!ask(&line, &reply)) return RETURN_UNKNOWN_FAULT;
    if (!next(&reply, "{\"tricks\":[")) {
        int fault = read_fault(&reply);
        return fault == REVOKE ? trace_by_positions(deal, count, play, solved) : fault == 24 ? RETURN_PLAY_FAULT : RETURN_UNKNOWN_FAULT;
    }
    for (int card = -cards_on_trick(deal); card <= count; card++) {
        int tricks;
        if (!next_number(&reply, &tricks) || !next(&reply, card < count ? "," : "]}")) return RETURN_UNKNOWN_FAULT;
        if (card >= 0) solved->tricks[card] = tricks;
    }
    return RETURN_NO_FAULT;
}

static int analyse(const struct deal *deal, const struct playTraceBin *play, struct solvedPlay *solved) {
    int fault = board_fault(deal, -1, 1, 1);
    if (fault != RETURN_NO_FAULT) return fault;
    if (play->number < 0 || play->number > 52) return RETURN_PLAY_FAULT;
    /* As with DDS: `number` counts the cards on the trick too, though they are not in the lists, and what comes after the first
       card of the last trick is left out. */
    int before_last = 4 * (tricks_left(deal) - 1);
    int count = (play->number < before_last ? play->number : before_last) - cards_on_trick(deal);
    if (count < 0) count = 0;
    for (int card = 0; card < count; card++) {
        if (play->suit[card] < 0 || play->suit[card] > 3 || play->rank[card] < 2 || play->rank[card] > 14) return RETURN_PLAY_FAULT;
    }
    solved->number = count + 1;
    return trace(deal, count, play, solved);
}

int AnalysePlayBin(struct deal dl, struct playTraceBin play, struct solvedPlay *solved, int thrId) {
    if (thrId < 0 || thrId >= thread_count()) return RETURN_THREAD_INDEX;
    return analyse(&dl, &play, solved);
}

static bool read_play(const struct playTracePBN *text, struct playTraceBin *play) {
    static const char suits[] = "SHDCshdc", ranks[] = "23456789TJQKA23456789tjqka";
    play->number = text->number;
    if (text->number < 0 || text->number > 52) return false;
    for (int card = 0; card < text->number; card++) {
        const char *suit = text->cards[2 * card] ? strchr(suits, text->cards[2 * card]) : NULL;
        const char *rank = suit && text->cards[2 * card + 1] ? strchr(ranks, text->cards[2 * card + 1]) : NULL;
        if (!rank) return false;
        play->suit[card] = (int)(suit - suits) % 4;
        play->rank[card] = 2 + (int)(rank - ranks) % 13;
    }
    return true;
}

int AnalysePlayPBN(struct dealPBN dlPBN, struct playTracePBN playPBN, struct solvedPlay *solvedp, int thrId) {
    struct deal deal;
    struct playTraceBin play;
    if (!read_deal(&dlPBN, &deal)) return RETURN_PBN_FAULT;
    return read_play(&playPBN, &play) ? AnalysePlayBin(deal, play, solvedp, thrId) : RETURN_PLAY_FAULT;
}

struct play_batch {
    const struct boards *boards;
    const struct playTracesBin *plays;
    struct solvedPlays *solved;
};

static int analyse_one(void *of, int index) {
    struct play_batch *batch = of;
    struct solvedPlay found;
    memset(&found, 0, sizeof found);
    int fault = analyse(&batch->boards->deals[index], &batch->plays->plays[index], &found);
    if (fault == RETURN_NO_FAULT) batch->solved->solved[index] = found;
    return fault;
}

int AnalyseAllPlaysBin(struct boards *bop, struct playTracesBin *plp, struct solvedPlays *solvedp, int chunkSize) {
    (void)chunkSize;
    if (bop->noOfBoards > MAXNOOFBOARDS) return RETURN_TOO_MANY_BOARDS;
    if (bop->noOfBoards != plp->noOfBoards) return RETURN_UNKNOWN_FAULT;
    struct play_batch batch = {bop, plp, solvedp};
    solvedp->noOfBoards = bop->noOfBoards;
    return for_each(bop->noOfBoards, analyse_one, &batch);
}

static int read_plays(const struct boardsPBN *boards, const struct playTracesPBN *plays, struct boards *deals, struct playTracesBin *cards) {
    deals->noOfBoards = boards->noOfBoards;
    cards->noOfBoards = plays->noOfBoards;
    if (boards->noOfBoards > MAXNOOFBOARDS || plays->noOfBoards > MAXNOOFBOARDS) return RETURN_TOO_MANY_BOARDS;
    for (int board = 0; board < boards->noOfBoards; board++) {
        if (!read_deal(&boards->deals[board], &deals->deals[board])) return RETURN_PBN_FAULT;
    }
    for (int board = 0; board < plays->noOfBoards; board++) {
        if (!read_play(&plays->plays[board], &cards->plays[board])) return RETURN_PLAY_FAULT;
    }
    return RETURN_NO_FAULT;
}

int AnalyseAllPlaysPBN(struct boardsPBN *bopPBN, struct playTracesPBN *plpPBN, struct solvedPlays *solvedp, int chunkSize) {
    struct boards *deals = malloc(sizeof *deals);
    struct playTracesBin *cards = malloc(sizeof *cards);
    int fault = deals && cards ? read_plays(bopPBN, plpPBN, deals, cards) : RETURN_UNKNOWN_FAULT;
    if (fault == RETURN_NO_FAULT) fault = AnalyseAllPlaysBin(deals, cards, solvedp, chunkSize);
    free(deals);
    free(cards);
    return fault;
}
