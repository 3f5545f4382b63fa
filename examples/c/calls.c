/* What a box's firmware does with the library: every call once or more, on memory that is lent and never grows. Prints what each answers. */
#include "lintelmoth.h"

#include <inttypes.h>
#include <stdio.h>
#include <string.h>

_Static_assert(LINTEL_STRIDE == 4 + 4 * LINTEL_CONSTRAINED + 2 * LINTEL_EQUAL, "a stride");
_Static_assert(LINTEL_REPORT_ROOM == 2 * LINTEL_RULES * (15 + 8 * LINTEL_RULES), "room for a report");
_Static_assert(LINTEL_TABLE == LINTEL_TERMS * LINTEL_ROW && LINTEL_ROW == LINTEL_TERMS / 64, "the term table");

static uint16_t parents[LINTEL_SITES], count, members[LINTEL_SITES];
static uint8_t ranks[LINTEL_SITES];
static uint8_t sites[LINTEL_SITES * LINTEL_SLOT];
static uint64_t words[(LINTEL_RULES + 1) * LINTEL_STRIDE];
static uint64_t table[LINTEL_TABLE], recs[LINTEL_ROW];
static uint16_t found[LINTEL_TERMS];
static uint8_t room[LINTEL_REPORT_ROOM];
static uint64_t answer[LINTEL_ANSWER];
static uint16_t site_count;
static uint32_t kept;
static unsigned calls;

/* A number and the words that go with it. */
static void show(const char *call, uint32_t number) {
    calls++;
    printf("%s: %" PRIu32 ", %" PRIu64 " %" PRIu64 "\n", call, number, answer[0], answer[1]);
}

static void classes(void) {
    lintel_classes_clear(parents, ranks, &count);
    calls++;
    printf("empty: %" PRIu32 "\n", lintel_is_empty(&count));
    calls++;
    show("find 5", lintel_find(parents, 5, answer, LINTEL_ANSWER));
    show("merge 5 9", lintel_merge(parents, ranks, &count, 5, 9, answer, LINTEL_ANSWER));
    show("merge 9 2", lintel_merge(parents, ranks, &count, 9, 2, answer, LINTEL_ANSWER));
    show("merge 2 5", lintel_merge(parents, ranks, &count, 2, 5, answer, LINTEL_ANSWER));
    show("merge 7 7", lintel_merge(parents, ranks, &count, 7, 7, answer, LINTEL_ANSWER));
    show("merge 7 1024", lintel_merge(parents, ranks, &count, 7, 1024, answer, LINTEL_ANSWER));
    show("find 2", lintel_find(parents, 2, answer, LINTEL_ANSWER));
    show("find_mut 2", lintel_find_mut(parents, 2, answer, LINTEL_ANSWER));
    show("same 2 9", lintel_in_same_set(parents, 2, 9, answer, LINTEL_ANSWER));
    show("same 2 7", lintel_in_same_set(parents, 2, 7, answer, LINTEL_ANSWER));
    printf("len: %" PRIu32 "\n", lintel_len(&count));
    calls++;
    show("remove 9, no room", lintel_remove_set_of(parents, &count, 9, members, 3, answer, LINTEL_ANSWER));
    show("remove 9", lintel_remove_set_of(parents, &count, 9, members, LINTEL_SITES, answer, LINTEL_ANSWER));
    for (uint64_t i = 0; i < answer[0]; i++) printf(" %" PRIu16, members[i]);
    printf("\n");
    show("remove 9", lintel_remove_set_of(parents, &count, 9, members, LINTEL_SITES, answer, LINTEL_ANSWER));
    show("find, no answer", lintel_find(parents, 5, answer, 1));
}

/* Sites 0 and 1 are arguments, site 2 is field 0 of site 0 as a structure. */
static void set_of_sites(void) {
    static const uint8_t argument0[] = {3, 0}, argument1[] = {3, 1}, field[] = {10, 0, 0, 0}, loose[] = {6, 0, 9}, torn[] = {10, 0}, argument2[] = {3, 2};
    uint16_t n = 0;
    show("add 0300", lintel_add_site(sites, sizeof sites, n, argument0, sizeof argument0, 2, answer, LINTEL_ANSWER));
    n += answer[1];
    show("add 0301", lintel_add_site(sites, sizeof sites, n, argument1, sizeof argument1, 3, answer, LINTEL_ANSWER));
    n += answer[1];
    show("add 0A000000", lintel_add_site(sites, sizeof sites, n, field, sizeof field, 4, answer, LINTEL_ANSWER));
    n += answer[1];
    show("add 0300", lintel_add_site(sites, sizeof sites, n, argument0, sizeof argument0, 5, answer, LINTEL_ANSWER));
    show("add 060009", lintel_add_site(sites, sizeof sites, n, loose, sizeof loose, 6, answer, LINTEL_ANSWER));
    show("add 0A00", lintel_add_site(sites, sizeof sites, n, torn, sizeof torn, 7, answer, LINTEL_ANSWER));
    show("add, no slot", lintel_add_site(sites, 3 * LINTEL_SLOT, n, argument2, sizeof argument2, 8, answer, LINTEL_ANSWER));
    show("unfold 2", lintel_unfold(sites, sizeof sites, n, 2, room, sizeof room, answer, LINTEL_ANSWER));
    for (uint64_t i = 0; i < answer[0]; i++) printf("%02X", room[i]);
    printf("\n");
    show("unfold 3", lintel_unfold(sites, sizeof sites, n, 3, room, sizeof room, answer, LINTEL_ANSWER));
    site_count = n;
    show("unfold 2, room 3", lintel_unfold(sites, sizeof sites, n, 2, room, 3, answer, LINTEL_ANSWER));
    show("unfold 2, two slots", lintel_unfold(sites, 2 * LINTEL_SLOT, n, 2, room, sizeof room, answer, LINTEL_ANSWER));
}

/* Loads a rule of `many` items; where it is kept, counts it. */
static void rule(const char *name, uint32_t place, int64_t priority, uint8_t many, const uint64_t *items) {
    uint32_t number = lintel_load(sites, sizeof sites, site_count, words, sizeof words / sizeof *words, kept, place, priority, items,
                                  (size_t)many * LINTEL_ITEM, many, answer, LINTEL_ANSWER);
    show(name, number);
    if (number) return;
    site_count = (uint16_t)answer[0];
    kept++;
}

/* Sites 0 and 1 are the arguments. Items: site, kind * 65536 + type, two words; or 65536 + site, site, 0, 0. */
#define INTEGER(site, n) (site), 3 * 65536 + 3, 0, (n)
#define STRUCTURE(site, fields) (site), 1 * 65536 + 7, (fields), 0
#define EQUAL(one, other) 65536 + (one), (other), 0, 0

static void set_of_rules(void) {
    static const uint64_t five[] = {INTEGER(0, 5)}, six[] = {INTEGER(0, 6)}, five_six[] = {INTEGER(0, 5), INTEGER(1, 6)};
    static const uint64_t torn[] = {EQUAL(0, 1), INTEGER(0, 5), INTEGER(1, 6)}, round[] = {STRUCTURE(0, 1), EQUAL(0, 2)};
    static const uint64_t hanging[] = {INTEGER(2, 1)}, unknown[] = {INTEGER(900, 1)}, two[] = {EQUAL(0, 1), STRUCTURE(0, 2)};
    static const uint64_t uncleared[] = {INTEGER(0, 5), 1, 65536 + 7, 2, 1};
    rule("load 10", 10, 1, 1, five);
    rule("load 20", 20, 0, 2, five_six);
    rule("load 30", 30, 0, 1, five);
    rule("load 40", 40, -1, 1, six);
    rule("load 40 again", 40, 0, 1, six);
    rule("load 50, unreachable", 50, 0, 3, torn);
    rule("load 60, in itself", 60, 0, 2, round);
    rule("load 70, hanging", 70, 0, 1, hanging);
    rule("load 80, unknown", 80, 0, 1, unknown);
    rule("load 90, two fields", 90, 0, 2, two);
    rule("load 95, a word uncleared", 95, 0, 2, uncleared);
    show("load, items torn", lintel_load(sites, sizeof sites, site_count, words, sizeof words / sizeof *words, kept, 95, 0, two, 7, 2, answer, LINTEL_ANSWER));
    show("total of 90", lintel_total_constraints(words, sizeof words / sizeof *words, kept - 1, answer, LINTEL_ANSWER));
    size_t length = 4 * LINTEL_STRIDE;
    show("overlap 0 1", lintel_may_overlap(words, length, 0, 1, answer, LINTEL_ANSWER));
    show("overlap 2 3", lintel_may_overlap(words, length, 2, 3, answer, LINTEL_ANSWER));
    show("overlap 3 4", lintel_may_overlap(words, length, 3, 4, answer, LINTEL_ANSWER));
    show("total 1", lintel_total_constraints(words, length, 1, answer, LINTEL_ANSWER));
    show("report, room 80", lintel_report(words, length, 4, 0, room, 80, answer, LINTEL_ANSWER));
    show("report of 65", lintel_report(words, sizeof words / sizeof *words, 65, 0, room, sizeof room, answer, LINTEL_ANSWER));
    show("report", lintel_report(words, length, 4, 0, room, sizeof room, answer, LINTEL_ANSWER));
    fwrite(room, 1, answer[0], stdout);
}

/* 01's graph, with a term that has rec. */
static void terms(void) {
    static const uint16_t edges[][2] = {{0, 1}, {0, 2}, {1, 0}, {2, 1}, {9, 9}, {9, 5}};
    lintel_terms_clear(table, recs);
    calls++;
    for (size_t i = 0; i < sizeof edges / sizeof *edges; i++) show("edge", lintel_add_edge(table, edges[i][0], edges[i][1], answer, LINTEL_ANSWER));
    show("edge to 256", lintel_add_edge(table, 3, 256, answer, LINTEL_ANSWER));
    show("rec 1", lintel_mark_rec(recs, 1, answer, LINTEL_ANSWER));
    show("cyclic, no room", lintel_cyclic_terms(table, recs, found, 255, answer, LINTEL_ANSWER));
    show("cyclic", lintel_cyclic_terms(table, recs, found, LINTEL_TERMS, answer, LINTEL_ANSWER));
    for (uint64_t i = 0; i < answer[0]; i++) printf(" %" PRIu16, found[i]);
    printf("\n");
}

static uint64_t state[LINTEL_STATE], items[LINTEL_ITEMS_ROOM];
static uint8_t held[LINTEL_HELD];

static void begin(size_t state_length) {
    calls++;
    printf("begin: %" PRIu32 "\n", lintel_sheet_begin(state, state_length, held, sizeof held, table));
}

static void feed(const char *name, const char *piece, size_t room_length) {
    show(name, lintel_sheet_feed(state, LINTEL_STATE, held, sizeof held, sites, sizeof sites, words, LINTEL_KEPT_ROOM, items, LINTEL_ITEMS_ROOM, table,
                                 (const uint8_t *)piece, strlen(piece), room, room_length, answer, LINTEL_ANSWER));
}

static void end(size_t room_length) {
    show("end", lintel_sheet_end(state, LINTEL_STATE, held, sizeof held, table, room, room_length, answer, LINTEL_ANSWER));
}

static void check(const char *name, const char *sheet, size_t sites_length, size_t room_length) {
    show(name, lintel_sheet_check((const uint8_t *)sheet, strlen(sheet), sites, sites_length, words, LINTEL_KEPT_ROOM, items, LINTEL_ITEMS_ROOM, table,
                                  room, room_length, answer, LINTEL_ANSWER));
}

/* Two sets; in the second a rule has one site twice under differing constraints. */
static void sheets(void) {
    static const char set[] = "01000700\n020300\n030000000A000000000000000101\n04000003000300000000000000000000000000000005\n"
                              "0300000014000000000000000001\n04000003000300000000000000000000000000000005\n06\n";
    static const char other[] = "01000801\n020300\n0300000014000000000000000002\n04000003000300000000000000000000000000000005\n"
                                "04000003000300000000000000000000000000000006\n06\n";
    char both[sizeof set + sizeof other];
    strcat(strcpy(both, set), other);
    begin(LINTEL_STATE - 1);
    begin(LINTEL_STATE);
    feed("feed, room 100", set, 100);
    feed("feed part of a line", "0100", sizeof room);
    feed("feed the rest, and the set", "0700\n020300\n030000000A000000000000000101\n04000003000300000000000000000000000000000005\n06\n", sizeof room);
    feed("feed a line that is none", "07\nand more", sizeof room);
    fwrite(room, 1, answer[1], stdout);
    printf("stopped: %" PRIu64 "\n", state[LINTEL_STOPPED]);
    feed("feed what comes behind", set, sizeof room);
    end(LINTEL_END_ROOM - 1);
    end(LINTEL_END_ROOM);
    begin(LINTEL_STATE);
    for (const char *rest = both; *rest; rest += answer[0]) {
        feed("feed two sets, or the rest", rest, sizeof room);
        fwrite(room, 1, answer[1], stdout);
    }
    end(sizeof room);
    fwrite(room, 1, answer[0], stdout);
    check("check", set, sizeof sites, sizeof room);
    fwrite(room, 1, answer[0], stdout);
    check("check, sites short", set, sizeof sites - 1, sizeof room);
    check("check, room short", set, sizeof sites, sizeof room - 1);
    check("check, room short of two sets", both, sizeof sites, sizeof room);
    check("check nothing", "", sizeof sites, sizeof room);
    fwrite(room, 1, answer[0], stdout);
}

int main(void) {
    classes();
    set_of_sites();
    set_of_rules();
    terms();
    sheets();
    printf("%u calls\n", calls);
    return 0;
}
