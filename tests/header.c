/* What include/lintelmoth.h says of refusals, of orders and of what is left alone, tried call by call. Prints how many sentences were tried; ends with 1
 * where one is not so. */
#include "lintelmoth.h"

#include <stdio.h>
#include <string.h>

#if LINTEL_VERSION != 5 || LINTEL_SITES * LINTEL_SLOT != LINTEL_SITES_ROOM || LINTEL_RULES * LINTEL_STRIDE != LINTEL_KEPT_ROOM
#error "the sizes of a set"
#endif
#if LINTEL_ITEMS * LINTEL_ITEM != LINTEL_ITEMS_ROOM || LINTEL_TERMS * LINTEL_ROW != LINTEL_TABLE || LINTEL_STACK_UNFOLD < LINTEL_STACK_OTHER
#error "the sizes of a rule and of the terms"
#endif

#define MANY (LINTEL_ITEMS + 1)
static uint16_t parents[LINTEL_SITES], count;
static uint8_t ranks[LINTEL_SITES], sites[LINTEL_SITES_ROOM], room[2 * LINTEL_STEP_ROOM], held[LINTEL_HELD];
static uint64_t words[LINTEL_KEPT_ROOM], items[MANY * LINTEL_ITEM], table[LINTEL_TABLE], state[LINTEL_STATE], answer[LINTEL_ANSWER + 1];
static int tried, wrong;

static void so(int is, const char *what) {
    tried++;
    if (is) return;
    wrong++;
    printf("header: not so: %s\n", what);
}

/* The first byte or word from `at` on that is not the mark. */
static size_t marked(const uint8_t *from, size_t at, size_t end) {
    while (at < end && from[at] == 0xA5) at++;
    return at;
}

static uint32_t load(uint16_t of, size_t lent, uint32_t kept, uint32_t place, size_t given, uint8_t many) {
    return lintel_load(sites, sizeof sites, of, words, lent, kept, place, 0, items, given, many, answer, LINTEL_ANSWER);
}

static void classes(void) {
    lintel_classes_clear(parents, ranks, &count);
    so(lintel_find(parents, 5, answer, LINTEL_ANSWER) == LINTEL_DONE && answer[0] == LINTEL_NONE && answer[1] == 0, "find of a site that was never joined");
    so(lintel_find_mut(parents, 5, answer, LINTEL_ANSWER) == LINTEL_DONE && answer[0] == LINTEL_NONE && answer[1] == 0, "find_mut of such a site");
    so(lintel_find(parents, LINTEL_SITES, answer, LINTEL_ANSWER) == LINTEL_UNKNOWN && answer[0] == LINTEL_SITES, "find of no site");
    answer[0] = answer[1] = answer[2] = 77;
    so(lintel_find(parents, LINTEL_SITES, answer, 1) == LINTEL_SHORT && answer[0] == 77 && answer[1] == 77, "short before all else, and the answer left alone");
    so(lintel_merge(parents, ranks, &count, 1, 1, answer, 3) == LINTEL_ITSELF && answer[0] == 1 && answer[1] == 0 && answer[2] == 77, "a third word left alone");
}

static void slots(void) {
    static const uint8_t argument[] = {3, 0}, structure[] = {9, 0, 1, 1, 0, 0};
    memset(sites, 0xA5, sizeof sites);
    so(lintel_add_site(sites, sizeof sites, 0, argument, sizeof argument, 1, answer, LINTEL_ANSWER) == LINTEL_DONE && answer[1] == 1, "a site is added");
    so(sites[0] == 2 && marked(sites, 3, sizeof sites) == sizeof sites, "in a slot the bytes past the body are left alone");
    so(lintel_add_site(sites, sizeof sites, 1, structure, sizeof structure, 1, answer, LINTEL_ANSWER) == LINTEL_DONE && answer[1] == 1, "and another");
    so(lintel_add_site(sites, LINTEL_SLOT, 2, argument, sizeof argument, 1, answer, LINTEL_ANSWER) == LINTEL_TOO_MANY_SITES && answer[0] == 2 && answer[1] == 1,
       "a known site, no room for all: the slots and one, the line");
    memset(room, 0xA5, sizeof room);
    so(lintel_unfold(sites, sizeof sites, 2, 1, room, sizeof room, answer, LINTEL_ANSWER) == LINTEL_DONE && answer[0] == 6, "an unfolding");
    so(marked(room, 6, sizeof room) == sizeof room, "the room past an unfolding is left alone");
    so(lintel_unfold(sites, sizeof sites, 2, 1, room, 5, answer, LINTEL_ANSWER) == LINTEL_UNFOLDING_TOO_LONG && answer[0] == 6 && answer[1] == 0, "no room for it: the room and one");
    so(lintel_unfold(sites, sizeof sites, 2, 0, room, 0, answer, LINTEL_ANSWER) == LINTEL_UNFOLDING_TOO_LONG && answer[0] == 1, "into no room: one");
    memset(room, 0xA5, sizeof room);
    answer[0] = answer[1] = 77;
    so(lintel_unfold(sites, 2 * LINTEL_SLOT - 1, 2, 1, room, sizeof room, answer, LINTEL_ANSWER) == LINTEL_SHORT, "unfold: short where the slots end before it");
    so(lintel_unfold(sites, LINTEL_SLOT, 2, 0, room, sizeof room, answer, LINTEL_ANSWER) == LINTEL_SHORT, "unfold: or before another of the set's");
    so(lintel_unfold(sites, LINTEL_SLOT, 2, 900, room, sizeof room, answer, LINTEL_ANSWER) == LINTEL_SHORT, "unfold: and before 2");
    so(answer[0] == 77 && answer[1] == 77 && marked(room, 0, sizeof room) == sizeof room, "unfold: which leaves the room and the answer alone");
    so(lintel_unfold(sites, 2 * LINTEL_SLOT, 2, 1, room, sizeof room, answer, LINTEL_ANSWER) == LINTEL_DONE && answer[0] == 6, "unfold: slots for all are enough");
}

/* Words that no item packs to. */
static const uint64_t strays[][LINTEL_ITEM] = {
    {0, 65536 + 5, 3, 1},     /* a structure with a fourth word */
    {0, 65536 + 5, 257, 0},   /* one of 257 fields */
    {0, 5, 70000, 1},         /* a variant of more than two bytes */
    {0, 5, 1, 257},           /* one of 257 fields */
    {0, 2 * 65536 + 5, 2, 0}, /* a bool of 2 */
    {0, 2 * 65536 + 5, 1, 1}, /* a bool with a fourth word */
    {0, 4 * 65536 + 5, 1, 0}, /* a name with a third word */
    {0, 5 * 65536 + 5, 0, 0}, /* Some with a type */
    {0, 5 * 65536, 0, 1},     /* Some with a fourth word */
    {0, 6 * 65536, 0, 0},     /* a kind that is none */
    {0, UINT64_MAX, 0, 0},
    {65536, 65536 + 2, 0, 0}, /* an equality with a site of more than two bytes */
    {2 * 65536, 1, 0, 0},
    {UINT64_MAX, 1, 0, 0},
    {65536, 1, 1, 0},         /* one with a third word, and with a fourth */
    {65536, 1, 0, 1},
};

/* Each of them is refused with 1, whatever else is wrong, told the first such item, and nothing is changed. */
static void layouts(void) {
    static uint64_t words_before[LINTEL_KEPT_ROOM], items_before[MANY * LINTEL_ITEM];
    static uint8_t sites_before[LINTEL_SITES_ROOM];
    static const uint64_t fine[] = {900, 3 * 65536 + 3, UINT64_MAX, 5};
    const size_t all = LINTEL_KEPT_ROOM, three = 3 * LINTEL_ITEM;
    memcpy(words_before, words, sizeof words);
    memcpy(sites_before, sites, sizeof sites);
    for (size_t i = 0; i < sizeof strays / sizeof *strays; i++) {
        memset(items, 0, sizeof items);
        memcpy(items, fine, sizeof fine);
        memcpy(items + LINTEL_ITEM, strays[i], sizeof strays[i]);
        memcpy(items + 2 * LINTEL_ITEM, strays[i], sizeof strays[i]);
        memcpy(items_before, items, sizeof items);
        so(load(2, all, 1, 9, three, 3) == LINTEL_LAYOUT && answer[0] == 1 && answer[1] == 0, "load: 1, told the first item that is not as laid out");
        so(load(LINTEL_SITES + 1, 0, LINTEL_RULES, 7, three, 3) == LINTEL_LAYOUT && answer[0] == 1, "load: 1 before 20, 23 and 8");
        so(load(2, all, 1, 9, three - 1, 3) == LINTEL_SHORT, "load: and short before 1");
        so(load(2, all, 1, 9, LINTEL_ITEM, 1) == LINTEL_UNKNOWN && answer[0] == 900, "load: words past the items are not looked at");
        memcpy(items, strays[i], sizeof strays[i]);
        so(load(2, all, 1, 9, LINTEL_ITEM, 1) == LINTEL_LAYOUT && answer[0] == 0, "load: items count from 0");
        memcpy(items, fine, sizeof fine);
        so(!memcmp(items, items_before, sizeof items) && !memcmp(words, words_before, sizeof words) && !memcmp(sites, sites_before, sizeof sites),
           "load: 1 changes nothing");
    }
    memset(items, 0, sizeof items);
    memcpy(items + LINTEL_ITEMS * LINTEL_ITEM, strays[0], sizeof strays[0]);
    so(load(2, all, 1, 9, sizeof items / 8, MANY) == LINTEL_LAYOUT && answer[0] == LINTEL_ITEMS, "load: 1 for an item past the most, before 24 for their count");
}

static void rules(void) {
    const size_t all = LINTEL_KEPT_ROOM, item = LINTEL_ITEM;
    memset(words, 0xA5, sizeof words);
    items[0] = 900;
    items[1] = 3 * 65536 + 3;
    /* each call has all that follows wrong too */
    so(load(1025, LINTEL_STRIDE - 1, 0, 7, item - 1, 1) == LINTEL_SHORT, "load: short items first");
    so(load(2, LINTEL_STRIDE - 1, 0, 7, item, 1) == LINTEL_TOO_MANY_RULES && answer[0] == 1, "load: 23, not short, where the words end before stride 0");
    so(load(2, 2 * LINTEL_STRIDE, 2, 7, item, 1) == LINTEL_TOO_MANY_RULES && answer[0] == 3, "load: 23, not short, where the words end before the kept rules");
    so(load(2, all, LINTEL_RULES, 7, item, 1) == LINTEL_TOO_MANY_RULES && answer[0] == LINTEL_RULES + 1, "load: 23 for too many rules");
    so(load(LINTEL_SITES + 1, all, 0, 7, item, 1) == LINTEL_TOO_MANY_SITES && answer[0] == LINTEL_SITES + 1, "load: 20 for too many sites");
    so(load(2, all, 0, 7, item, 1) == LINTEL_UNKNOWN && answer[0] == 900, "load: 2 where nothing else is wrong");
    so(marked((const uint8_t *)words, 0, sizeof words) == sizeof words, "what is refused is not written");
    items[0] = 0;
    so(load(2, all, 0, 7, item, 1) == LINTEL_DONE && answer[0] == 2, "a rule is kept");
    so(words[2] == 1 && words[3] == 0 && marked((const uint8_t *)words, 64, sizeof words) == sizeof words, "the words that its counts do not use are left alone");
    items[0] = 900;
    so(load(2, all, 1, 7, sizeof items / 8, MANY) == LINTEL_TOO_MANY_ITEMS && answer[0] == MANY, "load: 24 for too many items before 8");
    so(load(2, all, 1, 7, sizeof items / 8 - 1, MANY) == LINTEL_SHORT, "load: and short before that");
    so(load(2, all, 1, 7, item, 1) == LINTEL_PLACE_USED && answer[0] == 7, "load: 8 before 2");
    items[0] = 0;
    so(lintel_load(sites, LINTEL_SLOT, 2, words, all, 1, 8, 0, items, item, 1, answer, LINTEL_ANSWER) == LINTEL_TOO_MANY_SITES && answer[0] == 2 && answer[1] == 1,
       "load: last 20 for the slots");
    so(load(2, all, 1, 8, item, 1) == LINTEL_DONE, "a second rule is kept");
    so(lintel_total_constraints(words, 2 * LINTEL_STRIDE - 1, 1, answer, LINTEL_ANSWER) == LINTEL_SHORT, "total: short words");
    so(lintel_report(words, all, LINTEL_RULES + 1, 0, room, sizeof room, answer, LINTEL_ANSWER) == LINTEL_SHORT, "report: short before too many rules");
    memset(room, 0xA5, sizeof room);
    so(lintel_report(words, all, 2, 255, room, sizeof room, answer, LINTEL_ANSWER) == LINTEL_DONE && answer[0] == 0, "report: odd flags over 3");
    so(lintel_report(words, all, 2, 254, room, sizeof room, answer, LINTEL_ANSWER) == LINTEL_DONE && answer[0] == 23, "report: even flags over 3");
    so(marked(room, 23, sizeof room) == sizeof room, "the room past a report is left alone");
}

static uint32_t check(const char *sheet, size_t length) {
    return lintel_sheet_check((const uint8_t *)sheet, strlen(sheet), sites, sizeof sites, words, LINTEL_KEPT_ROOM, items, LINTEL_ITEMS_ROOM, table, room, length,
                              answer, LINTEL_ANSWER);
}

static uint32_t feed(const char *piece) {
    return lintel_sheet_feed(state, LINTEL_STATE, held, LINTEL_HELD, sites, sizeof sites, words, LINTEL_KEPT_ROOM, items, LINTEL_ITEMS_ROOM, table,
                             (const uint8_t *)piece, strlen(piece), room, sizeof room, answer, LINTEL_ANSWER);
}

static uint32_t end(void) { return lintel_sheet_end(state, LINTEL_STATE, held, LINTEL_HELD, table, room, sizeof room, answer, LINTEL_ANSWER); }

static void sheets(void) {
    /* two rules that name no site: a finding 11 each */
    static const char refused[] = "01000700\n020300\n030000000A000000000000000101\n04000903000300000000000000000000000000000005\n"
                                  "030000000B000000000000000101\n04000903000300000000000000000000000000000005\n06\n";
    static const char both[] = "110000000A02\n110000000B02\n1500010000\n";
    so(check("", LINTEL_STEP_ROOM - 1) == LINTEL_SHORT, "check: a room under LINTEL_STEP_ROOM is short");
    so(check("", LINTEL_STEP_ROOM) == LINTEL_DONE && answer[0] == 11, "check: the empty sheet");
    so(check(refused, sizeof room) == LINTEL_DONE && answer[0] == strlen(both) && !memcmp(room, both, strlen(both)), "check: three findings");
    memset(room, 0, sizeof room);
    so(check(refused, LINTEL_STEP_ROOM) == LINTEL_SHORT && answer[0] == 0 && answer[1] == 0, "check: short, with two zeros, where the room was too short");
    so(strlen((const char *)room) == 13 && !memcmp(room, both, 13), "check: then whole lines, up to the first 0");
    lintel_sheet_begin(state, LINTEL_STATE, held, LINTEL_HELD, table);
    so(feed("01000700\n") == LINTEL_DONE && answer[0] == 9 && state[LINTEL_STOPPED] == 0, "feed: a set begins");
    so(end() == LINTEL_DONE && answer[0] == 13 && !memcmp(room, "1F0000000201\n", 13), "end: a set that is open is a 1F");
    so(state[LINTEL_STOPPED] == 0, "end: which leaves the stopped word at 0");
    so(feed("0203") == LINTEL_DONE && end() == LINTEL_DONE && !memcmp(room, "1F0000000201\n", 13) && state[LINTEL_STOPPED] == 0, "end: so does a line with no LF");
    so(feed("\n") == LINTEL_DONE && answer[1] == 13 && state[LINTEL_STOPPED] == 1, "feed: a line that stops the sheet sets it");
    so(feed("01000700\n") == LINTEL_DONE && answer[0] == 9 && answer[1] == 0 && end() == LINTEL_DONE && answer[0] == 0, "after that all counts as read");
}

int main(void) {
    classes();
    slots();
    rules();
    layouts();
    sheets();
    printf("header: %d sentences tried, wrong: %d\n", tried, wrong);
    return wrong || tried < 140;
}
