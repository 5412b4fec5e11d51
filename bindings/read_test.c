/* P2, P4 and P6 of the exact rules, two refusals, a record of form 9, and settings editions, through the C face. */
#include <stdio.h>
#include <string.h>

#include "../include/stableglow.h"

enum { LENT = 77, ROWS = 8, EVENT_ROOM = 20 * STABLEGLOW_EVENT, ERROR_ROOM = 16 };

static const char SOURCE[] = "rule a{condition:true}";
/* RULE_KW, WHITESPACE, IDENT, L_BRACE, CONDITION_KW, COLON, TRUE_KW, R_BRACE */
static const uint32_t IDS[ROWS] = {37, 0, 74, 66, 12, 58, 41, 67};
static const uint32_t ENDS[ROWS] = {4, 5, 6, 7, 16, 17, 21, 22};

static int failed = 0;
static uint32_t events[EVENT_ROOM], errors[ERROR_ROOM], answer[5];
static uint64_t scratch[1];

static void expect(const char *what, int ok) {
    if (!ok) {
        failed = 1;
        printf("differs: %s\n", what);
    }
}

/* Reads the first n rows by an edition with so many event numbers of room; everything is LENT before. */
static uint32_t read_edition(const char *settings, uint32_t edition, size_t n, uint32_t fuel, size_t event_room) {
    uint32_t starts[ROWS] = {0};
    for (size_t i = 1; i < ROWS; i++) starts[i] = ENDS[i - 1];
    for (size_t i = 0; i < EVENT_ROOM; i++) events[i] = LENT;
    for (size_t i = 0; i < ERROR_ROOM; i++) errors[i] = LENT;
    scratch[0] = LENT;
    return stableglow_read((const uint8_t *)SOURCE, ENDS[n - 1], IDS, n, starts, n, ENDS, n, (const uint8_t *)settings,
                           strlen(settings), edition, fuel, scratch, 1, events, event_room, errors, ERROR_ROOM, answer);
}

static uint32_t read_rows(size_t n, uint32_t fuel, size_t event_room) { return read_edition("", 1, n, fuel, event_room); }

static int answered(uint32_t outcome, uint32_t rows, uint32_t count, uint32_t records, uint32_t left) {
    return answer[0] == outcome && answer[1] == rows && answer[2] == count && answer[3] == records && answer[4] == left;
}

/* ED A0 80 where a rule's name is expected: one record of form 9, the place of A0 behind its count; with so many numbers of room. */
static uint32_t read_bad(size_t error_room) {
    static const uint8_t source[] = {'r', 'u', 'l', 'e', ' ', 0xED, 0xA0, 0x80};
    static const uint32_t ids[] = {37, 0, 3}, starts[] = {0, 4, 5}, ends[] = {4, 5, 8};
    for (size_t i = 0; i < ERROR_ROOM; i++) errors[i] = LENT;
    return stableglow_read(source, sizeof source, ids, 3, starts, 3, ends, 3, NULL, 0, 1, 9, scratch, 1, events, EVENT_ROOM, errors,
                           error_room, answer);
}

int main(void) {
    expect("P2", read_rows(8, 5, EVENT_ROOM) == 0 && answered(0, 8, 18, 0, 0) && scratch[0] == 0 && errors[0] == 0);
    expect("P2 with room exact", read_rows(8, 5, 90) == 0 && answered(0, 8, 18, 0, 0) && events[90] == LENT);
    expect("P2 with five numbers less", read_rows(8, 5, 85) == 7 && answered(0, 0, 0, 0, 0) && events[0] == 0 && events[84] == 0);
    expect("P4", read_rows(8, 1, EVENT_ROOM) == 0 && answered(1, 0, 6, 0, 0));
    const uint32_t depths[] = {0, 1, 2, 2, 1, 0};
    for (size_t i = 0; i < 6; i++) expect("depths of P4", events[STABLEGLOW_EVENT * i + 4] == depths[i]);
    const uint32_t end_of_file[] = {21, 21, 3, 1, 2, 83, 67};
    expect("P6", read_rows(7, 5, EVENT_ROOM) == 0 && answered(0, 7, answer[2], 1, 0) && memcmp(errors, end_of_file, sizeof end_of_file) == 0);
    expect("no room at all", read_rows(8, 5, 0) == 7 && answered(0, 0, 0, 0, 0) && events[0] == LENT && errors[0] == 0 && scratch[0] == 0);
    const uint32_t bad_byte[] = {5, 8, 9, 1, 0, 6, LENT};
    expect("form 9 with room exact", read_bad(6) == 0 && answered(0, 3, 10, 1, 6) && memcmp(errors, bad_byte, sizeof bad_byte) == 0);
    expect("form 9 with one number less", read_bad(5) == 8 && answered(0, 0, 0, 0, 0) && errors[4] == 0 && errors[5] == LENT);
    /* edition 2 has fuel 5, 3 has 4 and one open node, 4 has 9 */
    const char settings[] = "2\t5\t1024\t15\n3\t4\t1\t15\n4\t9\t1024\t15\t0\n";
    expect("an edition's own fuel", read_edition(settings, 2, 8, 1, EVENT_ROOM) == 0 && answered(0, 8, 18, 0, 0));
    expect("edition 1 beside others", read_edition(settings, 1, 8, 1, EVENT_ROOM) == 0 && answered(1, 0, 6, 0, 0));
    expect("an edition's depth", read_edition(settings, 3, 8, 9, EVENT_ROOM) == 0 && answer[0] == 2);
    expect("entrypoint off, none there", read_edition(settings, 4, 8, 0, EVENT_ROOM) == 0 && answered(0, 8, 18, 0, 4));
    expect("an edition that is not there", read_edition(settings, 5, 8, 9, EVENT_ROOM) == 18 && answered(0, 0, 0, 0, 0) && events[0] == LENT && scratch[0] == LENT);
    expect("edition 0", read_edition(settings, 0, 8, 9, EVENT_ROOM) == 18 && answered(0, 0, 0, 0, 0) && errors[0] == LENT);
    expect("a line that does not read", read_edition("2\t5\t1024\t15\n3\t5\t0\t15\n", 1, 8, 9, EVENT_ROOM) == 19 && answered(2, 0, 0, 0, 0) && events[0] == LENT && errors[0] == LENT && scratch[0] == LENT);
    puts(failed ? "0 passed, 1 failed" : "1 passed, 0 failed");
    return failed;
}
