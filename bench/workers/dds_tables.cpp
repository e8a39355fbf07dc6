// The twenty results of deals by DDS's CalcAllTables, with so many threads: reads request lines for tables, and prints their
// reply lines; then, on the standard error, the nanoseconds of its calls, each of 40 deals at most, and how many threads DDS
// says that it has. It takes good input for granted.
#include <dds/dll.h>

#include <chrono>
#include <cstdio>
#include <cstdlib>
#include <cstring>
#include <iostream>
#include <string>

static ddTableDealsPBN asked;
static ddTablesRes solved;
static allParResults pars;

// The results of what is asked.
static long long call() {
    int all_strains[DDS_STRAINS] = {0, 0, 0, 0, 0};
    auto start = std::chrono::steady_clock::now();
    int status = CalcAllTablesPBN(&asked, -1, all_strains, &solved, &pars);
    auto taken = std::chrono::duration_cast<std::chrono::nanoseconds>(std::chrono::steady_clock::now() - start);
    if (status != RETURN_NO_FAULT) {
        std::fprintf(stderr, "DDS: %d\n", status);
        std::exit(1);
    }
    for (int i = 0; i < asked.noOfTables; i++) {
        std::printf("{\"table\":[");
        for (int strain = 0; strain < DDS_STRAINS; strain++) {
            const int *tricks = solved.results[i].resTable[strain];
            std::printf("%s[%d,%d,%d,%d]", strain ? "," : "", tricks[0], tricks[1], tricks[2], tricks[3]);
        }
        std::printf("]}\n");
    }
    asked.noOfTables = 0;
    return taken.count();
}

int main(int count, char **words) {
    SetMaxThreads(count > 1 ? atoi(words[1]) : 1);
    long long taken = 0;
    std::string line;
    while (std::getline(std::cin, line)) {
        size_t from = line.find("\"deal\":\"") + 8;
        std::string deal = line.substr(from, line.find('"', from) - from);
        char *cards = asked.deals[asked.noOfTables++].cards;
        std::strncpy(cards, deal.c_str(), sizeof asked.deals[0].cards - 1);
        if (asked.noOfTables == MAXNOOFTABLES)
            taken += call();
    }
    if (asked.noOfTables)
        taken += call();
    DDSInfo info;
    GetDDSInfo(&info);
    std::fprintf(stderr, "%lld %d\n", taken, info.noOfThreads);
}
