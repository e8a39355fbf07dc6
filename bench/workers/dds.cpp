// The same lines by DDS's SolveAllBoards, with so many threads: reads request lines in the written form, with no card played
// and a deal by itself, and prints their reply lines; then, on the standard error, the nanoseconds of the call and how many
// threads DDS says that it has. At most 200 lines. It takes good input for granted.
#include <dds/dll.h>

#include <algorithm>
#include <chrono>
#include <cstdio>
#include <cstdlib>
#include <cstring>
#include <iostream>
#include <string>
#include <vector>

static std::string field(const std::string &line, const std::string &name) {
    std::string key = "\"" + name + "\":";
    size_t from = line.find(key) + key.size();
    if (line[from] == '"')
        return line.substr(from + 1, line.find('"', from + 1) - from - 1);
    return line.substr(from, line.find_first_of(",}", from) - from);
}

struct Scored {
    int equals, rank, score, suit;
};

static void print(const futureTricks &found) {
    std::vector<Scored> cards;
    for (int i = 0; i < found.cards; i++)
        cards.push_back({found.equals[i], found.rank[i], found.score[i], found.suit[i]});
    std::stable_sort(cards.begin(), cards.end(), [](const Scored &a, const Scored &b) {
        if (a.score != b.score)
            return a.score > b.score;
        return a.suit != b.suit ? a.suit < b.suit : a.rank > b.rank;
    });
    std::printf("{\"cards\":[");
    for (size_t i = 0; i < cards.size(); i++)
        std::printf("%s{\"equals\":%d,\"rank\":%d,\"score\":%d,\"suit\":%d}", i ? "," : "", cards[i].equals, cards[i].rank, cards[i].score, cards[i].suit);
    std::printf("]}\n");
}

static boardsPBN asked;
static solvedBoards solved;

int main(int count, char **words) {
    SetMaxThreads(count > 1 ? atoi(words[1]) : 1);
    std::string line;
    while (std::getline(std::cin, line) && asked.noOfBoards < MAXNOOFBOARDS) {
        int place = asked.noOfBoards++;
        dealPBN &deal = asked.deals[place];
        deal.trump = atoi(field(line, "trump").c_str());
        deal.first = atoi(field(line, "first").c_str());
        std::strncpy(deal.remainCards, field(line, "deal").c_str(), sizeof deal.remainCards - 1);
        asked.target[place] = -1;
        asked.solutions[place] = atoi(field(line, "solutions").c_str());
        asked.mode[place] = 1;
    }
    auto start = std::chrono::steady_clock::now();
    int status = SolveAllBoards(&asked, &solved);
    auto taken = std::chrono::duration_cast<std::chrono::nanoseconds>(std::chrono::steady_clock::now() - start);
    if (status != RETURN_NO_FAULT) {
        std::fprintf(stderr, "DDS: %d\n", status);
        return 1;
    }
    for (int i = 0; i < solved.noOfBoards; i++)
        print(solved.solvedBoard[i]);
    DDSInfo info;
    GetDDSInfo(&info);
    std::fprintf(stderr, "%lld %d\n", static_cast<long long>(taken.count()), info.noOfThreads);
}
