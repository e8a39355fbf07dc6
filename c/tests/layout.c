/* Prints where the members of DDS's structures lie, by the header that is compiled. */
#include <stdbool.h>
#include <dds/dll.h>

#include <stddef.h>
#include <stdio.h>

#define SIZE(type) printf(#type " %zu\n", sizeof(struct type))
#define MEMBER(type, member) printf(#type "." #member " %zu %zu\n", offsetof(struct type, member), sizeof(((struct type *)0)->member))

static void boards_and_tables(void) {
    SIZE(futureTricks); MEMBER(futureTricks, nodes); MEMBER(futureTricks, cards); MEMBER(futureTricks, suit);
    MEMBER(futureTricks, rank); MEMBER(futureTricks, equals); MEMBER(futureTricks, score);
    SIZE(deal); MEMBER(deal, trump); MEMBER(deal, first); MEMBER(deal, currentTrickSuit); MEMBER(deal, currentTrickRank);
    MEMBER(deal, remainCards);
    SIZE(dealPBN); MEMBER(dealPBN, trump); MEMBER(dealPBN, first); MEMBER(dealPBN, currentTrickSuit);
    MEMBER(dealPBN, currentTrickRank); MEMBER(dealPBN, remainCards);
    SIZE(boards); MEMBER(boards, noOfBoards); MEMBER(boards, deals); MEMBER(boards, target); MEMBER(boards, solutions); MEMBER(boards, mode);
    SIZE(boardsPBN); MEMBER(boardsPBN, noOfBoards); MEMBER(boardsPBN, deals); MEMBER(boardsPBN, target); MEMBER(boardsPBN, solutions);
    MEMBER(boardsPBN, mode);
    SIZE(solvedBoards); MEMBER(solvedBoards, noOfBoards); MEMBER(solvedBoards, solvedBoard);
    SIZE(ddTableDeal); SIZE(ddTableDeals); MEMBER(ddTableDeals, noOfTables); MEMBER(ddTableDeals, deals);
    SIZE(ddTableDealPBN); SIZE(ddTableDealsPBN); MEMBER(ddTableDealsPBN, noOfTables); MEMBER(ddTableDealsPBN, deals);
    SIZE(ddTableResults); SIZE(ddTablesRes); MEMBER(ddTablesRes, noOfBoards); MEMBER(ddTablesRes, results);
}

static void par_and_plays(void) {
    SIZE(parResults); MEMBER(parResults, parScore); MEMBER(parResults, parContractsString);
    SIZE(allParResults); SIZE(parResultsDealer); MEMBER(parResultsDealer, number); MEMBER(parResultsDealer, score);
    MEMBER(parResultsDealer, contracts);
    SIZE(contractType); MEMBER(contractType, underTricks); MEMBER(contractType, overTricks); MEMBER(contractType, level);
    MEMBER(contractType, denom); MEMBER(contractType, seats);
    SIZE(parResultsMaster); MEMBER(parResultsMaster, score); MEMBER(parResultsMaster, number); MEMBER(parResultsMaster, contracts);
    SIZE(parTextResults); MEMBER(parTextResults, parText); MEMBER(parTextResults, equal);
    SIZE(playTraceBin); MEMBER(playTraceBin, number); MEMBER(playTraceBin, suit); MEMBER(playTraceBin, rank);
    SIZE(playTracePBN); MEMBER(playTracePBN, number); MEMBER(playTracePBN, cards);
    SIZE(solvedPlay); MEMBER(solvedPlay, number); MEMBER(solvedPlay, tricks);
    SIZE(playTracesBin); MEMBER(playTracesBin, plays); SIZE(playTracesPBN); MEMBER(playTracesPBN, plays);
    SIZE(solvedPlays); MEMBER(solvedPlays, solved);
    SIZE(DDSInfo); MEMBER(DDSInfo, major); MEMBER(DDSInfo, versionString); MEMBER(DDSInfo, system); MEMBER(DDSInfo, numBits);
    MEMBER(DDSInfo, compiler); MEMBER(DDSInfo, constructor); MEMBER(DDSInfo, numCores); MEMBER(DDSInfo, threading);
    MEMBER(DDSInfo, noOfThreads); MEMBER(DDSInfo, threadSizes); MEMBER(DDSInfo, systemString);
}

static void numbers(void) {
    printf("%d %d %d %d %d %d\n", DDS_VERSION, DDS_HANDS, DDS_SUITS, DDS_STRAINS, MAXNOOFBOARDS, MAXNOOFTABLES);
    for (int code = 1; code > -400; code--) {
        char text[80];
        ErrorMessage(code, text);
        printf("%d %s\n", code, text);
    }
}

int main(void) {
    /* DDS built from its source wants to be begun, or its end fails. */
    SetMaxThreads(1);
    boards_and_tables();
    par_and_plays();
    numbers();
    return 0;
}
