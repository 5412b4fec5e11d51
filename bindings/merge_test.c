/* P9 of the exact rules and the refusals at their edges, through the C face. */
#include <stdio.h>
#include <string.h>

#include "../include/stableglow.h"

enum { ERROR = 87, LENT = 77 };

static int failed = 0;

static void expect(const char *what, int ok) {
    if (!ok) {
        failed = 1;
        printf("differs: %s\n", what);
    }
}

/* Merges into a room of the given size, all LENT before, and holds number, count and room to what they should be. */
static void merged(const char *what, const uint32_t *in, size_t n, size_t room_len, uint32_t number, uint32_t count, const uint32_t *out) {
    uint32_t room[32], want[32], got_count = LENT;
    for (size_t i = 0; i < 32; i++) room[i] = want[i] = LENT;
    if (number == 0) {
        memset(want, 0, room_len * sizeof want[0]);
        memcpy(want, out, STABLEGLOW_EVENT * count * sizeof want[0]);
    }
    uint32_t got = stableglow_merge(in, n, room, room_len, &got_count);
    expect(what, got == number && got_count == count && memcmp(room, want, sizeof room) == 0);
}

int main(void) {
    const uint32_t two[] = {1, ERROR, 0, 1, 0, 3, ERROR, 0, 1, 0, 1, ERROR, 1, 3, 0, 3, ERROR, 1, 3, 0};
    const uint32_t one[] = {1, ERROR, 0, 3, 0, 3, ERROR, 0, 3, 0};
    const uint32_t sort[] = {5, ERROR, 0, 1, 0}, deep[] = {1, ERROR, 0, 1, 0, 3, ERROR, 0, 1, 1}, other[] = {1, 88, 0, 1, 0, 3, ERROR, 0, 1, 0};
    merged("P9", two, 20, 15, 0, 2, one);
    merged("P9 with room exact", two, 20, 10, 0, 2, one);
    merged("P9 with five numbers less", two, 20, 5, 7, 0, one);
    merged("no multiple of 5", two, 16, 15, 9, 0, one);
    merged("sort 5", sort, 5, 15, 9, 0, one);
    merged("a depth that is not the counted one", deep, 10, 15, 9, 0, one);
    merged("an end with no node open", two + 5, 5, 15, 9, 0, one);
    merged("a begin never closed", two, 5, 15, 10, 0, one);
    merged("an end with no ERROR node open", other, 10, 15, 10, 0, one);
    merged("nothing", two, 0, 0, 0, 0, one);
    puts(failed ? "0 passed, 1 failed" : "1 passed, 0 failed");
    return failed;
}
