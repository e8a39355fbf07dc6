/* What the library says of itself, and the texts of return codes. */
#include "dds_lines.h"

#include <stdio.h>
#include <string.h>
#include <unistd.h>

void ErrorMessage(int code, char line[80]) {
    static const struct {
        int code;
        const char *text;
    } texts[] = {
        {RETURN_NO_FAULT, TEXT_NO_FAULT},
        {RETURN_UNKNOWN_FAULT, TEXT_UNKNOWN_FAULT},
        {RETURN_ZERO_CARDS, TEXT_ZERO_CARDS},
        {RETURN_TARGET_TOO_HIGH, TEXT_TARGET_TOO_HIGH},
        {RETURN_DUPLICATE_CARDS, TEXT_DUPLICATE_CARDS},
        {RETURN_TARGET_WRONG_LO, TEXT_TARGET_WRONG_LO},
        {RETURN_TARGET_WRONG_HI, TEXT_TARGET_WRONG_HI},
        {RETURN_SOLNS_WRONG_LO, TEXT_SOLNS_WRONG_LO},
        {RETURN_SOLNS_WRONG_HI, TEXT_SOLNS_WRONG_HI},
        {RETURN_TOO_MANY_CARDS, TEXT_TOO_MANY_CARDS},
        {RETURN_SUIT_OR_RANK, TEXT_SUIT_OR_RANK},
        {RETURN_PLAYED_CARD, TEXT_PLAYED_CARD},
        {RETURN_CARD_COUNT, TEXT_CARD_COUNT},
        {RETURN_THREAD_INDEX, TEXT_THREAD_INDEX},
        {RETURN_MODE_WRONG_LO, TEXT_MODE_WRONG_LO},
        {RETURN_MODE_WRONG_HI, TEXT_MODE_WRONG_HI},
        {RETURN_TRUMP_WRONG, TEXT_TRUMP_WRONG},
        {RETURN_FIRST_WRONG, TEXT_FIRST_WRONG},
        {RETURN_PLAY_FAULT, TEXT_PLAY_FAULT},
        {RETURN_PBN_FAULT, TEXT_PBN_FAULT},
        {RETURN_TOO_MANY_BOARDS, TEXT_TOO_MANY_BOARDS},
        {RETURN_THREAD_CREATE, TEXT_THREAD_CREATE},
        {RETURN_THREAD_WAIT, TEXT_THREAD_WAIT},
        {RETURN_THREAD_MISSING, TEXT_THREAD_MISSING},
        {RETURN_NO_SUIT, TEXT_NO_SUIT},
        {RETURN_TOO_MANY_TABLES, TEXT_TOO_MANY_TABLES},
        {RETURN_CHUNK_SIZE, TEXT_CHUNK_SIZE},
    };
    strcpy(line, "Not a DDS error code");
    for (size_t at = 0; at < sizeof texts / sizeof *texts; at++) {
        if (texts[at].code == code) strcpy(line, texts[at].text);
    }
}

void GetDDSInfo(struct DDSInfo *info) {
    char failure[LONGEST_FAILURE];
    copy_failure(failure);
    memset(info, 0, sizeof *info);
    info->major = DDS_VERSION / 10000;
    info->minor = DDS_VERSION / 100 % 100;
    info->patch = DDS_VERSION % 100;
    snprintf(info->versionString, sizeof info->versionString, "%d.%d.%d", info->major, info->minor, info->patch);
    info->system = 3; /* Linux */
    info->numBits = (int)(8 * sizeof(void *));
    info->compiler = 3; /* GNU */
    info->constructor = 2;
    info->threading = 5;
    info->numCores = (int)sysconf(_SC_NPROCESSORS_ONLN);
    info->noOfThreads = thread_count();
    snprintf(info->threadSizes, sizeof info->threadSizes, "0 S, %d L", info->noOfThreads);
    snprintf(
        info->systemString, sizeof info->systemString,
        "ddserve by the interface of DDS %s\nNumber of cores %d\nNumber of threads %d\n%s%s%s", info->versionString, info->numCores,
        info->noOfThreads, *failure ? "No answers: " : "", failure, *failure ? "\n" : "");
}
