/* DDS's calls for the twenty results. The results of one strain are a piece of work, so that the threads share a deal too. */
#include "dds_lines.h"

#include <stdlib.h>
#include <string.h>

struct table_batch {
    const struct ddTableDeal *deals;
    struct ddTableResults *results;
    int strains[DDS_STRAINS];
    int strain_count;
};

/* What declarer takes before the lead: the trace of a play without cards. Less than 0 where there is no reply. */
static int ask_declarer(const struct deal *deal) {
    struct line line = {0};
    struct reply reply;
    int tricks;
    put(&line, "{\"do\":\"play\",");
    put_cards(&line, deal);
    put(&line, ",\"trump\":");
    put_number(&line, deal->trump);
    put(&line, ",\"first\":");
    put_number(&line, deal->first);
    put(&line, ",\"cards\":[]}");
    return ask(&line, &reply) && next(&reply, "{\"tricks\":[") && next_number(&reply, &tricks) ? tricks : -1;
}

static int one_strain(void *of, int index) {
    struct table_batch *batch = of;
    int table = index / batch->strain_count, strain = batch->strains[index % batch->strain_count];
    struct deal deal = {.trump = strain};
    memcpy(deal.remainCards, batch->deals[table].cards, sizeof deal.remainCards);
    int fault = board_fault(&deal, -1, 1, 1);
    if (fault == RETURN_NO_FAULT && cards_on_trick(&deal)) fault = RETURN_CARD_COUNT;
    for (deal.first = 0; fault == RETURN_NO_FAULT && deal.first < DDS_HANDS; deal.first++) {
        int tricks = ask_declarer(&deal);
        if (tricks < 0) fault = RETURN_UNKNOWN_FAULT;
        /* The hand behind declarer leads. */
        batch->results[table].resTable[strain][(deal.first + 3) % 4] = tricks;
    }
    return fault;
}

int CalcDDtable(struct ddTableDeal tableDeal, struct ddTableResults *tablep) {
    struct table_batch batch = {&tableDeal, tablep, {4, 0, 1, 2, 3}, DDS_STRAINS};
    return for_each(DDS_STRAINS, one_strain, &batch);
}

int CalcDDtablePBN(struct ddTableDealPBN tableDealPBN, struct ddTableResults *tablep) {
    struct ddTableDeal deal;
    return read_pbn(tableDealPBN.cards, deal.cards) ? CalcDDtable(deal, tablep) : RETURN_PBN_FAULT;
}

/* Par of each table, where the mode is a vulnerability. */
static int par_of_each(const struct ddTableDeals *deals, int mode, struct ddTablesRes *found, struct allParResults *pars) {
    int fault = RETURN_NO_FAULT;
    for (int table = 0; mode >= 0 && mode <= 3 && fault == RETURN_NO_FAULT && table < deals->noOfTables; table++) {
        fault = Par(&found->results[table], &pars->presults[table], mode);
    }
    return fault;
}

int CalcAllTables(
    struct ddTableDeals *dealsp, int mode, int trumpFilter[DDS_STRAINS], struct ddTablesRes *resp, struct allParResults *presp) {
    struct table_batch batch = {.deals = dealsp->deals, .results = resp->results};
    for (int strain = DDS_STRAINS - 1; strain >= 0; strain--) {
        if (!trumpFilter[strain]) batch.strains[batch.strain_count++] = strain;
    }
    if (batch.strain_count == 0) return RETURN_NO_SUIT;
    /* DDS counts strains: with one of them a call takes five times as many deals. */
    int work = batch.strain_count * dealsp->noOfTables;
    if (work > MAXNOOFTABLES * DDS_STRAINS) return RETURN_TOO_MANY_TABLES;
    resp->noOfBoards = 4 * work;
    int fault = for_each(work, one_strain, &batch);
    if (fault != RETURN_NO_FAULT || batch.strain_count < DDS_STRAINS) return fault;
    return par_of_each(dealsp, mode, resp, presp);
}

int CalcAllTablesPBN(
    struct ddTableDealsPBN *dealsp, int mode, int trumpFilter[DDS_STRAINS], struct ddTablesRes *resp, struct allParResults *presp) {
    struct ddTableDeals *deals = malloc(sizeof *deals);
    if (!deals) return RETURN_UNKNOWN_FAULT;
    int fault = RETURN_NO_FAULT;
    deals->noOfTables = dealsp->noOfTables;
    if (dealsp->noOfTables > MAXNOOFTABLES * DDS_STRAINS) fault = RETURN_TOO_MANY_TABLES;
    for (int table = 0; fault == RETURN_NO_FAULT && table < dealsp->noOfTables; table++) {
        if (!read_pbn(dealsp->deals[table].cards, deals->deals[table].cards)) fault = RETURN_PBN_FAULT;
    }
    if (fault == RETURN_NO_FAULT) fault = CalcAllTables(deals, mode, trumpFilter, resp, presp);
    free(deals);
    return fault;
}
