/* A sheet that comes in pieces, as over a line from the depot: each piece is fed as it comes, and what it finds is printed at once. It prints what
 * `lintelmoth check` prints.
 *
 *     sheet [FILE [PIECE]]     FILE, or standard input where it is -, in pieces of PIECE bytes (7 where none is named); PIECE 0: the whole sheet at once
 */
#include "lintelmoth.h"

#include <stdio.h>
#include <stdlib.h>
#include <string.h>

_Static_assert(LINTEL_SITES_ROOM == LINTEL_SITES * LINTEL_SLOT && LINTEL_KEPT_ROOM == LINTEL_RULES * LINTEL_STRIDE, "a set");
_Static_assert(LINTEL_ITEMS_ROOM == LINTEL_ITEMS * LINTEL_ITEM && LINTEL_STEP_ROOM == LINTEL_REPORT_ROOM, "a rule, a report");
_Static_assert(LINTEL_END_ROOM == 7 * LINTEL_TERMS + 11, "a line for each term, and the last");

/* All that is kept of a sheet between two pieces. */
static uint64_t state[LINTEL_STATE], words[LINTEL_KEPT_ROOM], items[LINTEL_ITEMS_ROOM], table[LINTEL_TABLE];
static uint8_t held[LINTEL_HELD], sites[LINTEL_SITES_ROOM];

static uint8_t room[LINTEL_STEP_ROOM], sheet[1 << 20];
static uint64_t answer[LINTEL_ANSWER];

static void stop(uint32_t number) {
    fprintf(stderr, "sheet: number %u\n", (unsigned)number);
    exit(1);
}

/* One piece. The room is no longer than one line needs, so a piece of many lines may take several calls. */
static void feed(const uint8_t *piece, size_t length) {
    while (length) {
        uint32_t number = lintel_sheet_feed(state, LINTEL_STATE, held, LINTEL_HELD, sites, LINTEL_SITES_ROOM, words, LINTEL_KEPT_ROOM,
                                            items, LINTEL_ITEMS_ROOM, table, piece, length, room, sizeof room, answer, LINTEL_ANSWER);
        if (number) stop(number);
        fwrite(room, 1, answer[1], stdout);
        piece += answer[0];
        length -= answer[0];
    }
}

static void in_pieces(FILE *from, size_t size) {
    uint32_t number = lintel_sheet_begin(state, LINTEL_STATE, held, LINTEL_HELD, table);
    if (number) stop(number);
    for (size_t n; (n = fread(sheet, 1, size, from)) > 0;) feed(sheet, n);
    number = lintel_sheet_end(state, LINTEL_STATE, held, LINTEL_HELD, table, room, sizeof room, answer, LINTEL_ANSWER);
    if (number) stop(number);
    fwrite(room, 1, answer[0], stdout);
}

static void whole(FILE *from) {
    static uint8_t all[sizeof sheet + LINTEL_STEP_ROOM];
    size_t n = fread(sheet, 1, sizeof sheet, from);
    uint32_t number = lintel_sheet_check(sheet, n, sites, LINTEL_SITES_ROOM, words, LINTEL_KEPT_ROOM, items, LINTEL_ITEMS_ROOM, table, all, sizeof all,
                                         answer, LINTEL_ANSWER);
    if (number) stop(number);
    fwrite(all, 1, answer[0], stdout);
}

int main(int count, char **given) {
    FILE *from = count < 2 || !strcmp(given[1], "-") ? stdin : fopen(given[1], "rb");
    long size = count < 3 ? 7 : strtol(given[2], 0, 10);
    if (!from || size < 0 || (size_t)size > sizeof sheet) return 2;
    if (size)
        in_pieces(from, (size_t)size);
    else
        whole(from);
    return 0;
}
