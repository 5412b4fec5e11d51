/* Messages of what the reader wrote for a damaged rule, and the two refusals at their edges, through the C face. */
#include <stdio.h>
#include <string.h>

#include "../include/stableglow.h"

enum { LENT = 77, ROOM = 64, ROWS = 16, EVENT_ROOM = 40 * STABLEGLOW_EVENT, ERROR_ROOM = 32 };

static int failed = 0;

static void expect(const char *what, int ok) {
    if (!ok) {
        failed = 1;
        printf("differs: %s\n", what);
    }
}

/* Tells a record in a room of the given size, all LENT before, and holds number, length and room to what they should be. */
static void told(const char *what, const char *source, const uint32_t *numbers, size_t n, size_t room_len, uint32_t number,
                 const char *text) {
    uint8_t room[ROOM], want[ROOM];
    uint32_t got_length = LENT, length = number == 0 ? (uint32_t)strlen(text) : 0;
    memset(room, LENT, sizeof room);
    memset(want, LENT, sizeof want);
    if (number == 0) {
        memset(want, 0, room_len);
        memcpy(want, text, length);
    }
    uint32_t got = stableglow_message((const uint8_t *)source, strlen(source), numbers, n, room, room_len, &got_length);
    expect(what, got == number && got_length == length && memcmp(room, want, sizeof room) == 0);
}

int main(void) {
    static const char source[] = "@ rule a{condition:true";
    uint32_t ids[ROWS], starts[ROWS], ends[ROWS], count, events[EVENT_ROOM], errors[ERROR_ROOM], answer[5];
    uint64_t scratch[1];
    expect("cut", stableglow_cut((const uint8_t *)source, 23, ids, ROWS, starts, ROWS, ends, ROWS, &count) == 0);
    expect("read", stableglow_read((const uint8_t *)source, 23, ids, count, starts, count, ends, count, NULL, 0, 1, 5, scratch, 1, events, EVENT_ROOM,
                                   errors, ERROR_ROOM, answer) == 0 && answer[3] == 2);
    expect("items", errors[3] == 1 && errors[5 + 3] == 2);
    told("junk", source, errors, ERROR_ROOM, ROOM, 0, "expecting import statement or rule definition");
    told("end of file", source, errors + 5, ERROR_ROOM - 5, ROOM, 0, "expecting operator or `}`, found end of file");
    told("room exact", source, errors + 5, ERROR_ROOM - 5, 44, 0, "expecting operator or `}`, found end of file");
    told("a byte less", source, errors + 5, ERROR_ROOM - 5, 43, 12, "");
    told("cut short", source, errors + 5, 6, ROOM, 11, "");
    told("no numbers, no room", source, errors, 0, 0, 11, "");
    puts(failed ? "0 passed, 1 failed" : "1 passed, 0 failed");
    return failed;
}
