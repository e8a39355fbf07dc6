// The same lines by DDS: reads request lines in the written form, with no card played, and prints the reply lines of
// `ddserve solve`, each at once. SolveBoard with the line's target or else -1, mode 1, CalcDDtable for a table, or AnalysePlayBin
// for a play, one thread; DealerParBin or SidesParBin for par of a table, of which the score alone is printed. It takes good input
// for granted.
#include <dds/dll.h>

#include <algorithm>
#include <cstdio>
#include <cstdlib>
#include <iostream>
#include <string>
#include <vector>

static std::string field(const std::string &line, const std::string &name) {
    std::string key = "\"" + name + "\":";
    size_t from = line.find(key) + key.size();
    if (line[from] == '"')
        return line.substr(from + 1, line.find('"', from + 1) - from - 1);
    return line.substr(from, line.find_first_of(",}", from) - from);
}

static void cards_of(const std::string &line, unsigned cards[DDS_HANDS][DDS_SUITS]) {
    const std::string ranks = "..23456789TJQKA";
    std::string text = field(line, "deal");
    int hand = std::string("NESW").find(text[0]), suit = 0;
    for (size_t i = 2; i < text.size(); i++) {
        if (text[i] == ' ') {
            hand = (hand + 1) % DDS_HANDS;
            suit = 0;
        } else if (text[i] == '.') {
            suit++;
        } else {
            cards[hand][suit] |= 1u << ranks.find(text[i], 2);
        }
    }
}

static void answer_table(const std::string &line) {
    ddTableDeal d = ddTableDeal{};
    cards_of(line, d.cards);
    ddTableResults found;
    int status = CalcDDtable(d, &found);
    if (status != RETURN_NO_FAULT) {
        std::printf("DDS: %d\n", status);
        return;
    }
    std::printf("{\"table\":[");
    for (int strain = 0; strain < DDS_STRAINS; strain++) {
        const int *tricks = found.resTable[strain];
        std::printf("%s[%d,%d,%d,%d]", strain ? "," : "", tricks[0], tricks[1], tricks[2], tricks[3]);
    }
    std::printf("]}\n");
}

static void answer_par(const std::string &line) {
    ddTableResults results;
    size_t from = line.find("[[");
    for (int place = 0; place < DDS_STRAINS * DDS_HANDS; place++) {
        from = line.find_first_of("0123456789", from);
        results.resTable[place / DDS_HANDS][place % DDS_HANDS] = atoi(line.c_str() + from);
        from = line.find_first_not_of("0123456789", from);
    }
    int vulnerable = atoi(field(line, "vulnerable").c_str());
    parResultsMaster found[2] = {};
    int side = 0, status;
    if (line.find("\"dealer\":") != std::string::npos) {
        status = DealerParBin(&results, found, atoi(field(line, "dealer").c_str()), vulnerable);
    } else {
        side = atoi(field(line, "side").c_str());
        status = SidesParBin(&results, found, vulnerable);
    }
    if (status != RETURN_NO_FAULT)
        std::printf("DDS: %d\n", status);
    else
        // Of East and West's side the score is theirs, whatever the header says.
        std::printf("{\"score\":%d}\n", side ? -found[side].score : found[side].score);
}

struct Scored {
    int equals, rank, score, suit;
};

static void answer_solve(const std::string &line) {
    deal d = deal{};
    d.trump = atoi(field(line, "trump").c_str());
    d.first = atoi(field(line, "first").c_str());
    cards_of(line, d.remainCards);
    futureTricks found;
    int target = line.find("\"target\":") == std::string::npos ? -1 : atoi(field(line, "target").c_str());
    int status = SolveBoard(d, target, atoi(field(line, "solutions").c_str()), 1, &found, 0);
    if (status != RETURN_NO_FAULT) {
        std::printf("DDS: %d\n", status);
        return;
    }
    std::vector<Scored> cards;
    for (int i = 0; i < found.cards; i++)
        cards.push_back({found.equals[i], found.rank[i], found.score[i], found.suit[i]});
    std::stable_sort(cards.begin(), cards.end(), [](const Scored &a, const Scored &b) {
        if (a.score != b.score)
            return a.score > b.score;
        return a.suit != b.suit ? a.suit < b.suit : a.rank > b.rank;
    });
    std::printf("{\"cards\":[");
    for (size_t i = 0; i < cards.size(); i++)
        std::printf("%s{\"equals\":%d,\"rank\":%d,\"score\":%d,\"suit\":%d}", i ? "," : "", cards[i].equals, cards[i].rank, cards[i].score, cards[i].suit);
    std::printf("]}\n");
}

// The numbers of the trace that DDS leaves out, those after the first card of the last trick, are the last that it gives.
static void answer_play(const std::string &line) {
    deal d = deal{};
    d.trump = atoi(field(line, "trump").c_str());
    d.first = atoi(field(line, "first").c_str());
    cards_of(line, d.remainCards);
    playTraceBin play = playTraceBin{};
    size_t at = line.find("\"cards\":[") + 9;
    while ((at = line.find('[', at)) != std::string::npos) {
        play.suit[play.number] = atoi(line.c_str() + at + 1);
        at = line.find(',', at) + 1;
        play.rank[play.number++] = atoi(line.c_str() + at);
    }
    solvedPlay found;
    int status = AnalysePlayBin(d, play, &found, 0);
    if (status != RETURN_NO_FAULT) {
        std::printf("DDS: %d\n", status);
        return;
    }
    std::printf("{\"tricks\":[");
    for (int i = 0; i <= play.number; i++)
        std::printf("%s%d", i ? "," : "", found.tricks[std::min(i, found.number - 1)]);
    std::printf("]}\n");
}

int main() {
    SetMaxThreads(1);
    std::string line;
    while (std::getline(std::cin, line)) {
        std::string task = field(line, "do");
        if (task == "table")
            answer_table(line);
        else if (task == "par")
            answer_par(line);
        else if (task == "play")
            answer_play(line);
        else
            answer_solve(line);
        std::fflush(stdout);
    }
}
