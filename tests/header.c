/* header: what ndushavire.h and ndushavire_sh.h say by themselves, in C and in C++, without the archives: the version in both forms, the limits, the
 * parts of a word, the words of a report and of a row, a table's edition and issue, which requests are of Sh. Exit status: 0 all as it should be, 1 not so. */
#include <stdio.h>
#include <string.h>

#include <ndushavire_sh.h>

static int wrong;

static void holds(int fact, const char *what) {
    if (fact) return;
    fprintf(stderr, "header: %s\n", what);
    wrong = 1;
}

/* The words of a report follow each other without a gap, and each is found where it stands. */
static void report_holds(void) {
    uint8_t report[NDUSHAVIRE_REPORT_ROOM];
    for (size_t at = 0; at < sizeof report; at++) report[at] = (uint8_t)(at % 8 < 6 ? 0xA0 + at % 8 : at / 8 * (at % 8 - 6));
    const uint64_t top = (uint64_t)0xA0A1A2A3A4A5u << 16; /* word K is this and K */
    int words = 1, counts = 1, refusals = 1, rise = 1;
    for (uint32_t k = 0; k < NDUSHAVIRE_REPORT_WORDS; k++) words &= ndushavire_report_word(report, k) == top + k;
    holds(words && sizeof report == 8 * NDUSHAVIRE_REPORT_WORDS, "a word of a report");
    holds(NDUSHAVIRE_REPORT_READ == 0 && NDUSHAVIRE_REPORT_STOP == 1 && NDUSHAVIRE_REPORT_ALTERED == 2 && NDUSHAVIRE_REPORT_LARGEST == 3 &&
              NDUSHAVIRE_REPORT_ANSWERED == 4,
          "the first words of a report");
    for (uint32_t number = 1; number <= NDUSHAVIRE_OUTPUT_SHORT; number++)
        refusals &= ndushavire_report_refused(report, number) == top + NDUSHAVIRE_REPORT_ANSWERED + number;
    holds(refusals && NDUSHAVIRE_REPORT_REFUSED + NDUSHAVIRE_OUTPUT_SHORT + 1 == NDUSHAVIRE_REPORT_RESULTS, "the refusals of a report");
    uint64_t next = top + NDUSHAVIRE_REPORT_RESULTS;
    for (uint32_t row = 0; row < NDUSHAVIRE_REPORT_ROWS; row++)
        for (uint32_t column = 0; column < NDUSHAVIRE_REPORT_COLUMNS; column++) counts &= ndushavire_report_count(report, row, column) == next++;
    holds(counts && next == top + NDUSHAVIRE_REPORT_WORDS, "the rows and columns of a report");
    for (uint32_t column = 1; column < NDUSHAVIRE_REPORT_COLUMNS; column++)
        rise &= column == NDUSHAVIRE_REPORT_BASE || ndushavire_report_result(column - 1) < ndushavire_report_result(column);
    holds(rise && ndushavire_report_result(0) == 2001 && ndushavire_report_result(NDUSHAVIRE_REPORT_BASE - 1) == 5014 &&
              ndushavire_report_result(NDUSHAVIRE_REPORT_BASE) == 2001 && ndushavire_report_result(NDUSHAVIRE_REPORT_COLUMNS - 1) == 5011,
          "the results of a report");
}

/* The words of a row stand one behind the other, and what a row altered is two bits. */
static void row_holds(void) {
    uint8_t words[3 * NDUSHAVIRE_ROW_WORD];
    int right = 1;
    for (size_t at = 0; at < sizeof words; at++) words[at] = (uint8_t)(0x10 * (at / 8 + 1) + at % 8);
    for (uint32_t k = 0; k < 3; k++) right &= ndushavire_row_word(words, k) == (uint64_t)0x0001020304050607u + (k + 1) * (uint64_t)0x1010101010101010u;
    holds(right && NDUSHAVIRE_ROW_WORD == 8, "a word of a row");
    holds(NDUSHAVIRE_ROW_ALTERED == 1 && NDUSHAVIRE_ROW_MARKED == 2, "what a row altered");
}

/* Edition and issue are read where they stand, and nothing else is. */
static void table_holds(void) {
    uint8_t header[NDUSHAVIRE_BLOCK];
    for (size_t at = 0; at < sizeof header; at++) header[at] = (uint8_t)(0xFF - at % 8);
    header[1] = 2;
    header[408] = 0x89, header[409] = 0xAB, header[410] = 0xCD, header[411] = 0xEF;
    holds(ndushavire_edition(header) == 2 && ndushavire_issue(header) == 0x89ABCDEFu, "a table's edition and issue");
}

/* A request is of Sh by the application in its header, all four bytes of it, and by nothing else. */
static void sh_holds(void) {
    uint8_t request[NDUSHAVIRE_REQUEST_MIN];
    int others = 1;
    memset(request, 0xFF, sizeof request);
    request[8] = request[11] = 1;
    request[9] = request[10] = 0;
    holds(ndushavire_sh_meant(request), "a request of Sh");
    for (size_t at = 8; at < 12; at++)
        for (unsigned bit = 1; bit < 256; bit *= 2) {
            request[at] ^= (uint8_t)bit;
            others &= !ndushavire_sh_meant(request);
            request[at] ^= (uint8_t)bit;
        }
    holds(others, "a request of another application taken for one of Sh");
#if NDUSHAVIRE_SH_APPLICATION != 16777217 || NDUSHAVIRE_SH_USER_DATA_REQUEST != 306 || NDUSHAVIRE_SH_STATE != 11 || \
    NDUSHAVIRE_SH_SERVER_NAME != 12 || NDUSHAVIRE_SH_NOT_REGISTERED != 0 || NDUSHAVIRE_SH_REGISTERED != 1 || \
    NDUSHAVIRE_SH_UNREGISTERED != 2 || NDUSHAVIRE_SH_AUTHENTICATION_PENDING != 3
    holds(0, "a number of Sh is no number to the preprocessor");
#endif
}

/* The first line of every list; and the longest one of a record, whose three names have nothing but quotes, 128, 128 and 96 of them, each doubled. */
static const char columns[] = "public,private,server,state,pending,barred,services,roaming,mandatory,m1,m2,m3,m4,optional,o1,o2,o3,o4,start,length,set\r\n";
static const char longest[] = "\"\",\"\",\"\",2,1,1,1,255,4,4294967295,4294967295,4294967295,4294967295,4,4294967295,4294967295,4294967295,4294967295,"
                              "4294967295,4096,65535\r\n";

int main(void) {
    unsigned major, minor, patch;
    char rest;
    holds(sscanf(NDUSHAVIRE_VERSION, "%u.%u.%u%c", &major, &minor, &patch, &rest) == 3 && minor < 100 && patch < 100 &&
              major * 10000 + minor * 100 + patch == NDUSHAVIRE_VERSION_NUMBER,
          "NDUSHAVIRE_VERSION_NUMBER is not that of NDUSHAVIRE_VERSION");
    holds(NDUSHAVIRE_TABLE_MAX == NDUSHAVIRE_BLOCK * (NDUSHAVIRE_RECORDS_MAX + 1),
          "NDUSHAVIRE_TABLE_MAX is not the header and the most records");
    holds(NDUSHAVIRE_VECTOR_FILE_MAX == NDUSHAVIRE_BLOCK * NDUSHAVIRE_VECTORS_MAX, "NDUSHAVIRE_VECTOR_FILE_MAX is not the most vectors");
    holds(NDUSHAVIRE_LIST_MAX == sizeof columns - 1 + (size_t)NDUSHAVIRE_RECORDS_MAX * (sizeof longest - 1 + 2 * (128 + 128 + 96)),
          "NDUSHAVIRE_LIST_MAX is not the first line and the most records' longest lines");
#if NDUSHAVIRE_VERSION_NUMBER < 800 || NDUSHAVIRE_TABLE_MAX < 2 || NDUSHAVIRE_VECTOR_FILE_MAX < 2 || NDUSHAVIRE_REPORT_ROOM != 1160 || \
    NDUSHAVIRE_VECTORS_UNSOUND != 6 || NDUSHAVIRE_REQUESTS_BROKEN != 7 || NDUSHAVIRE_TABLE_HAS_SETS != 8 || NDUSHAVIRE_NEW_UNSOUND != 9 || \
    NDUSHAVIRE_ISSUE_NOT_GREATER != 10 || NDUSHAVIRE_AREA_SHORT != 11 || NDUSHAVIRE_PEER_UNKNOWN != 12 || \
    NDUSHAVIRE_NAME_UNLISTABLE != 13 || NDUSHAVIRE_LINE_WRONG != 14 || NDUSHAVIRE_OUTPUT_SHORT != 15 || NDUSHAVIRE_LIST_MAX != 3440761 || \
    NDUSHAVIRE_RFC_3588 != 3588 || NDUSHAVIRE_RFC_6733 != 6733 || NDUSHAVIRE_NO_FEATURES != 0
    holds(0, "a number is no number to the preprocessor");
#endif
    const uint64_t word = (uint64_t)5 << 48 | (uint64_t)0xFFFF << 32 | 0x89ABCDEFu;
    holds(ndushavire_number(word) == 5 && ndushavire_place(word) == 0xFFFF && ndushavire_value(word) == 0x89ABCDEFu, "a word's parts");
    holds(!ndushavire_answered(word) && !ndushavire_sound(word) && !ndushavire_moved(word) && !ndushavire_taken(word) && !ndushavire_written(word),
          "a refusal taken for an answer");
    const uint64_t has_sets = (uint64_t)NDUSHAVIRE_TABLE_HAS_SETS << 48 | NDUSHAVIRE_RECORDS_MAX;
    holds(!ndushavire_moved(has_sets) && ndushavire_value(has_sets) == 4096 && ndushavire_place(has_sets) == 0, "a move refused for a set");
    holds(ndushavire_moved(NDUSHAVIRE_RECORDS_MAX) && ndushavire_moved(0), "a move taken for a refusal");
    holds(ndushavire_taken(NDUSHAVIRE_RECORDS_MAX) && !ndushavire_taken((uint64_t)NDUSHAVIRE_NEW_UNSOUND << 48), "a take-over taken for a refusal");
    const uint64_t missing = (uint64_t)NDUSHAVIRE_LINE_WRONG << 48 | (NDUSHAVIRE_RECORDS_MAX + 2); /* the last line that can be named */
    holds(!ndushavire_written(missing) && ndushavire_value(missing) == 4098 && ndushavire_place(missing) == 0, "a list refused at a line");
    holds(ndushavire_written(NDUSHAVIRE_LIST_MAX) && ndushavire_written(NDUSHAVIRE_BLOCK), "a list or a table that was written taken for a refusal");
    holds(!ndushavire_answered((uint64_t)0xFFFF << 48), "a number that is not known taken for an answer");
    holds(!ndushavire_answered((uint64_t)NDUSHAVIRE_PEER_UNKNOWN << 48), "an unknown edition taken for an answer");
    const uint64_t faulty = (uint64_t)(NDUSHAVIRE_REQUEST_MAX - 4) << 32 | NDUSHAVIRE_ANSWER_ROOM; /* the last place that there is */
    holds(ndushavire_answered(faulty) && ndushavire_place(faulty) == 16380 && ndushavire_value(faulty) == NDUSHAVIRE_ANSWER_ROOM,
          "an answer with a place");
    holds(ndushavire_place(NDUSHAVIRE_ANSWER_ROOM) == 0, "a place where there is none");
    holds(ndushavire_answered(NDUSHAVIRE_ANSWER_ROOM) && ndushavire_sound(NDUSHAVIRE_RECORDS_MAX), "an answer taken for a refusal");
    report_holds();
    row_holds();
    table_holds();
    sh_holds();
    if (!wrong) printf("header: version %s, and the numbers of ndushavire.h and ndushavire_sh.h agree\n", NDUSHAVIRE_VERSION);
    return wrong;
}
