/* What a program for DDS sees where ddserve doesn't start: prints the codes of a position and of a table, whose strains are asked by
   several threads, and what GetDDSInfo tells then. */
#include <dds/dll.h>

#include <stdio.h>
#include <string.h>

int main(void) {
    struct dealPBN position = {4, 0, {0, 0, 0}, {0, 0, 0}, "N:32... K4... AQ... 65..."};
    struct ddTableDealPBN deal = {"N:AK... QJ... T9... 87..."};
    struct futureTricks found;
    struct ddTableResults table;
    struct DDSInfo info;
    memset(&found, 0, sizeof found);
    SetMaxThreads(0);
    printf("%d", SolveBoardPBN(position, -1, 3, 1, &found, 0));
    printf(" %d\n", CalcDDtablePBN(deal, &table));
    GetDDSInfo(&info);
    printf("%s", info.systemString);
    return 0;
}
