/* The interface of the library DDS 2.9 for programs that are linked with `dds_compat`: the same names, structures and numbers, so
   that object code made with DDS's own header fits too. What the functions mean is told in DDS's manual; ../README.md says where
   these differ. Written anew; the layouts are compared with DDS's own header by a test. */
#ifndef DDS_DLL_H
#define DDS_DLL_H

#include <stdbool.h>

#define DLLEXPORT
#define STDCALL
#ifdef __cplusplus
#define EXTERN_C extern "C"
#else
#define EXTERN_C
#endif

#define DDS_VERSION 20900

#define DDS_HANDS 4
#define DDS_SUITS 4
#define DDS_STRAINS 5
#define MAXNOOFBOARDS 200
#define MAXNOOFTABLES 40

/* What a call returns, and the text that ErrorMessage has for it. */
#define RETURN_NO_FAULT 1
#define TEXT_NO_FAULT "Success"
#define RETURN_UNKNOWN_FAULT -1
#define TEXT_UNKNOWN_FAULT "General error"
#define RETURN_ZERO_CARDS -2
#define TEXT_ZERO_CARDS "Zero cards"
#define RETURN_TARGET_TOO_HIGH -3
#define TEXT_TARGET_TOO_HIGH "Target exceeds number of tricks"
#define RETURN_DUPLICATE_CARDS -4
#define TEXT_DUPLICATE_CARDS "Cards duplicated"
#define RETURN_TARGET_WRONG_LO -5
#define TEXT_TARGET_WRONG_LO "Target is less than -1"
#define RETURN_TARGET_WRONG_HI -7
#define TEXT_TARGET_WRONG_HI "Target is higher than 13"
#define RETURN_SOLNS_WRONG_LO -8
#define TEXT_SOLNS_WRONG_LO "Solutions parameter is less than 1"
#define RETURN_SOLNS_WRONG_HI -9
#define TEXT_SOLNS_WRONG_HI "Solutions parameter is higher than 3"
#define RETURN_TOO_MANY_CARDS -10
#define TEXT_TOO_MANY_CARDS "Too many cards"
#define RETURN_SUIT_OR_RANK -12
#define TEXT_SUIT_OR_RANK "currentTrickSuit or currentTrickRank has wrong data"
#define RETURN_PLAYED_CARD -13
#define TEXT_PLAYED_CARD "Played card also remains in a hand"
#define RETURN_CARD_COUNT -14
#define TEXT_CARD_COUNT "Wrong number of remaining cards in a hand"
#define RETURN_THREAD_INDEX -15
#define TEXT_THREAD_INDEX "Thread index is not 0 .. maximum"
#define RETURN_MODE_WRONG_LO -16
#define TEXT_MODE_WRONG_LO "Mode parameter is less than 0"
#define RETURN_MODE_WRONG_HI -17
#define TEXT_MODE_WRONG_HI "Mode parameter is higher than 2"
#define RETURN_TRUMP_WRONG -18
#define TEXT_TRUMP_WRONG "Trump is not in 0 .. 4"
#define RETURN_FIRST_WRONG -19
#define TEXT_FIRST_WRONG "First is not in 0 .. 2"
#define RETURN_PLAY_FAULT -98
#define TEXT_PLAY_FAULT "AnalysePlay input error"
#define RETURN_PBN_FAULT -99
#define TEXT_PBN_FAULT "PBN string error"
#define RETURN_TOO_MANY_BOARDS -101
#define TEXT_TOO_MANY_BOARDS "Too many boards requested"
#define RETURN_THREAD_CREATE -102
#define TEXT_THREAD_CREATE "Could not create threads"
#define RETURN_THREAD_WAIT -103
#define TEXT_THREAD_WAIT "Something failed waiting for thread to end"
#define RETURN_THREAD_MISSING -104
#define TEXT_THREAD_MISSING "Multi-threading system not present"
#define RETURN_NO_SUIT -201
#define TEXT_NO_SUIT "Denomination filter vector has no entries"
#define RETURN_TOO_MANY_TABLES -202
#define TEXT_TOO_MANY_TABLES "Too many DD tables requested"
#define RETURN_CHUNK_SIZE -301
#define TEXT_CHUNK_SIZE "Chunk size is less than 1"

/* Suits and strains: 0 spades, 1 hearts, 2 diamonds, 3 clubs, 4 notrump. Hands: 0 North, 1 East, 2 South, 3 West. Ranks: 2 to 14.
   A set of cards of one suit has bit r for rank r. */

struct futureTricks {
    int nodes; /* 0: the positions that were visited are not told */
    int cards;
    int suit[13];
    int rank[13];
    int equals[13]; /* the lower cards of the class */
    int score[13];
};

struct deal {
    int trump;
    int first;
    int currentTrickSuit[3];
    int currentTrickRank[3]; /* 0 where no card was played */
    unsigned int remainCards[DDS_HANDS][DDS_SUITS];
};

struct dealPBN {
    int trump;
    int first;
    int currentTrickSuit[3];
    int currentTrickRank[3];
    char remainCards[80];
};

struct boards {
    int noOfBoards;
    struct deal deals[MAXNOOFBOARDS];
    int target[MAXNOOFBOARDS];
    int solutions[MAXNOOFBOARDS];
    int mode[MAXNOOFBOARDS];
};

struct boardsPBN {
    int noOfBoards;
    struct dealPBN deals[MAXNOOFBOARDS];
    int target[MAXNOOFBOARDS];
    int solutions[MAXNOOFBOARDS];
    int mode[MAXNOOFBOARDS];
};

struct solvedBoards {
    int noOfBoards;
    struct futureTricks solvedBoard[MAXNOOFBOARDS];
};

struct ddTableDeal {
    unsigned int cards[DDS_HANDS][DDS_SUITS];
};

struct ddTableDeals {
    int noOfTables;
    struct ddTableDeal deals[MAXNOOFTABLES * DDS_STRAINS];
};

struct ddTableDealPBN {
    char cards[80];
};

struct ddTableDealsPBN {
    int noOfTables;
    struct ddTableDealPBN deals[MAXNOOFTABLES * DDS_STRAINS];
};

struct ddTableResults {
    int resTable[DDS_STRAINS][DDS_HANDS];
};

struct ddTablesRes {
    int noOfBoards;
    struct ddTableResults results[MAXNOOFTABLES * DDS_STRAINS];
};

/* Par as North and South see it, and as East and West do. */
struct parResults {
    char parScore[2][16];
    char parContractsString[2][128];
};

struct allParResults {
    struct parResults presults[MAXNOOFTABLES];
};

struct parResultsDealer {
    int number;
    int score;
    char contracts[10][10];
};

struct contractType {
    int underTricks;
    int overTricks;
    int level;
    int denom; /* 0 notrump, 1 spades, 2 hearts, 3 diamonds, 4 clubs */
    int seats; /* a hand, or 4 for North and South, 5 for East and West */
};

struct parResultsMaster {
    int score;
    int number;
    struct contractType contracts[10];
};

struct parTextResults {
    char parText[2][128];
    bool equal; /* it does not matter which side begins */
};

struct playTraceBin {
    int number;
    int suit[52];
    int rank[52];
};

struct playTracePBN {
    int number;
    char cards[106];
};

struct solvedPlay {
    int number;
    int tricks[53];
};

struct playTracesBin {
    int noOfBoards;
    struct playTraceBin plays[MAXNOOFBOARDS];
};

struct playTracesPBN {
    int noOfBoards;
    struct playTracePBN plays[MAXNOOFBOARDS];
};

struct solvedPlays {
    int noOfBoards;
    struct solvedPlay solved[MAXNOOFBOARDS];
};

struct DDSInfo {
    int major, minor, patch;
    char versionString[10];
    int system;
    int numBits;
    int compiler;
    int constructor;
    int numCores;
    int threading;
    int noOfThreads;
    char threadSizes[128];
    char systemString[1024]; /* with a line `No answers: ` and the reason where no solver could be started */
};

/* These alone are the library's names; its own parts share others, which stay hidden (-fvisibility=hidden). */
#ifdef __GNUC__
#pragma GCC visibility push(default)
#endif
#ifdef __cplusplus
extern "C" {
#endif

void SetMaxThreads(int userThreads);
int SetThreading(int code);
void SetResources(int maxMemoryMB, int maxThreads);
void FreeMemory(void);

int SolveBoard(struct deal dl, int target, int solutions, int mode, struct futureTricks *futp, int threadIndex);
int SolveBoardPBN(struct dealPBN dlpbn, int target, int solutions, int mode, struct futureTricks *futp, int thrId);
int SolveAllBoards(struct boardsPBN *bop, struct solvedBoards *solvedp);
int SolveAllChunks(struct boardsPBN *bop, struct solvedBoards *solvedp, int chunkSize);
int SolveAllChunksBin(struct boards *bop, struct solvedBoards *solvedp, int chunkSize);
int SolveAllChunksPBN(struct boardsPBN *bop, struct solvedBoards *solvedp, int chunkSize);

int CalcDDtable(struct ddTableDeal tableDeal, struct ddTableResults *tablep);
int CalcDDtablePBN(struct ddTableDealPBN tableDealPBN, struct ddTableResults *tablep);
int CalcAllTables(
    struct ddTableDeals *dealsp, int mode, int trumpFilter[DDS_STRAINS], struct ddTablesRes *resp, struct allParResults *presp);
int CalcAllTablesPBN(
    struct ddTableDealsPBN *dealsp, int mode, int trumpFilter[DDS_STRAINS], struct ddTablesRes *resp, struct allParResults *presp);

int Par(struct ddTableResults *tablep, struct parResults *presp, int vulnerable);
int CalcPar(struct ddTableDeal tableDeal, int vulnerable, struct ddTableResults *tablep, struct parResults *presp);
int CalcParPBN(struct ddTableDealPBN tableDealPBN, struct ddTableResults *tablep, int vulnerable, struct parResults *presp);
int SidesPar(struct ddTableResults *tablep, struct parResultsDealer sidesRes[2], int vulnerable);
int DealerPar(struct ddTableResults *tablep, struct parResultsDealer *presp, int dealer, int vulnerable);
int DealerParBin(struct ddTableResults *tablep, struct parResultsMaster *presp, int dealer, int vulnerable);
int SidesParBin(struct ddTableResults *tablep, struct parResultsMaster sidesRes[2], int vulnerable);
int ConvertToDealerTextFormat(struct parResultsMaster *pres, char *resp);
int ConvertToSidesTextFormat(struct parResultsMaster *pres, struct parTextResults *resp);

int AnalysePlayBin(struct deal dl, struct playTraceBin play, struct solvedPlay *solved, int thrId);
int AnalysePlayPBN(struct dealPBN dlPBN, struct playTracePBN playPBN, struct solvedPlay *solvedp, int thrId);
int AnalyseAllPlaysBin(struct boards *bop, struct playTracesBin *plp, struct solvedPlays *solvedp, int chunkSize);
int AnalyseAllPlaysPBN(struct boardsPBN *bopPBN, struct playTracesPBN *plpPBN, struct solvedPlays *solvedp, int chunkSize);

void GetDDSInfo(struct DDSInfo *info);
void ErrorMessage(int code, char line[80]);

#ifdef __cplusplus
}
#endif
#ifdef __GNUC__
#pragma GCC visibility pop
#endif

#endif
