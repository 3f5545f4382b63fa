/* The deepest stack of each call of the library for the box, on inputs made to be deep: a painted stack. What is counted begins
 * with the call of a small function that makes the call, so an empty one is in the table too. Ends with 1 where a call went
 * deeper than the header says. */
#include "lintelmoth.h"

#include <pthread.h>
#include <stdio.h>
#include <stdlib.h>
#include <string.h>

static uint16_t parents[LINTEL_SITES], count, members[LINTEL_SITES], found[LINTEL_TERMS];
static uint8_t ranks[LINTEL_SITES], sites[LINTEL_SITES * LINTEL_SLOT], broad[LINTEL_SITES * LINTEL_SLOT], any[LINTEL_SITES * LINTEL_SLOT];
static uint8_t room[LINTEL_REPORT_ROOM];
static uint16_t broad_count;
static uint64_t words[LINTEL_RULES * LINTEL_STRIDE], table[LINTEL_TABLE], recs[LINTEL_ROW], answer[LINTEL_ANSWER];
static uint8_t set[LINTEL_SITES * LINTEL_SLOT], flat[LINTEL_SITES * LINTEL_SLOT], many;
static uint64_t kept[LINTEL_STRIDE], items[LINTEL_ITEMS * LINTEL_ITEM];
static uint64_t state[LINTEL_STATE], ended[LINTEL_STATE], lent_items[LINTEL_ITEMS_ROOM], lent[LINTEL_KEPT_ROOM], edges[LINTEL_TABLE], ring[LINTEL_TABLE];
static uint8_t held[LINTEL_HELD], lent_sites[LINTEL_SITES_ROOM], all[2 * LINTEL_STEP_ROOM];
static char sheet[16384];
static const uint64_t wide[] = {65536, 1, 0, 0, 65537, 2, 0, 0, 65538, 3, 0, 0, 1, 65543, 8, 0};
/* The same class, and each of the eight fields a structure of eight: more sites than the loader's short lists hold. */
static const uint64_t large[] = {65536, 1, 0, 0, 65537, 2, 0, 0, 65538, 3, 0, 0, 0, 65543, 8, 0, 4,  65544, 8, 0, 5,  65544, 8, 0,
                                 6,     65544, 8, 0, 7, 65544, 8, 0, 8, 65544, 8, 0, 9, 65544, 8, 0, 10, 65544, 8, 0, 11, 65544, 8, 0};
static const uint8_t body[] = {9, 0, 1, 1, 0, 9};

static void nothing(void) {}
static void clear(void) { lintel_classes_clear(parents, ranks, &count); }
static void find(void) { lintel_find(parents, 1023, answer, LINTEL_ANSWER); }
static void find_mut(void) { lintel_find_mut(parents, 1023, answer, LINTEL_ANSWER); }
static void merge(void) { lintel_merge(parents, ranks, &count, 3, 1023, answer, LINTEL_ANSWER); }
static void same(void) { lintel_in_same_set(parents, 3, 1023, answer, LINTEL_ANSWER); }
static void remove_set(void) { lintel_remove_set_of(parents, &count, 3, members, LINTEL_SITES, answer, LINTEL_ANSWER); }
static void len(void) { lintel_len(&count); }
static void is_empty(void) { lintel_is_empty(&count); }
static void add(void) { lintel_add_site(sites, sizeof sites, 1023, body, sizeof body, 0, answer, LINTEL_ANSWER); }
static void unfold(void) { lintel_unfold(sites, sizeof sites, LINTEL_SITES, LINTEL_SITES - 1, room, sizeof room, answer, LINTEL_ANSWER); }
static void unfold_broad(void) { lintel_unfold(broad, sizeof broad, broad_count, broad_count - 1, room, sizeof room, answer, LINTEL_ANSWER); }
static void unfold_any(void) { lintel_unfold(any, sizeof any, LINTEL_SITES, LINTEL_SITES - 1, room, sizeof room, answer, LINTEL_ANSWER); }
static void load(void) { lintel_load(set, sizeof set, 16, kept, sizeof kept / 8, 0, 1, 0, items, many * LINTEL_ITEM, many, answer, LINTEL_ANSWER); }
static void load_wide(void) { lintel_load(flat, sizeof flat, 4, kept, sizeof kept / 8, 0, 1, 0, wide, 4 * LINTEL_ITEM, 4, answer, LINTEL_ANSWER); }
static uint32_t too_large(void) { return lintel_load(flat, sizeof flat, 4, kept, sizeof kept / 8, 0, 1, 0, large, 12 * LINTEL_ITEM, 12, answer, LINTEL_ANSWER); }
static void load_large(void) { too_large(); }
static void overlap(void) { lintel_may_overlap(words, sizeof words / 8, 3, 60, answer, LINTEL_ANSWER); }
static void total(void) { lintel_total_constraints(words, sizeof words / 8, 3, answer, LINTEL_ANSWER); }
static void report(void) { lintel_report(words, sizeof words / 8, LINTEL_RULES, 0, room, sizeof room, answer, LINTEL_ANSWER); }
static void terms_clear(void) { lintel_terms_clear(table, recs); }
static void edge(void) { lintel_add_edge(table, 3, 200, answer, LINTEL_ANSWER); }
static void rec(void) { lintel_mark_rec(recs, 3, answer, LINTEL_ANSWER); }
static void begin(void) { lintel_sheet_begin(state, LINTEL_STATE, held, LINTEL_HELD, edges); }
static void feed(void) {
    lintel_sheet_feed(state, LINTEL_STATE, held, LINTEL_HELD, lent_sites, sizeof lent_sites, lent, LINTEL_KEPT_ROOM, lent_items, LINTEL_ITEMS_ROOM, edges,
                      (const uint8_t *)sheet, strlen(sheet), all, sizeof all, answer, LINTEL_ANSWER);
}
static void end(void) { lintel_sheet_end(ended, LINTEL_STATE, held, LINTEL_HELD, ring, room, sizeof room, answer, LINTEL_ANSWER); }
static void check(void) {
    lintel_sheet_check((const uint8_t *)sheet, strlen(sheet), lent_sites, sizeof lent_sites, lent, LINTEL_KEPT_ROOM, lent_items, LINTEL_ITEMS_ROOM, edges,
                       all, sizeof all, answer, LINTEL_ANSWER);
}
static void cyclic(void) { lintel_cyclic_terms(ring, recs, found, LINTEL_TERMS, answer, LINTEL_ANSWER); }

static const struct {
    const char *name;
    void (*call)(void);
    size_t most;
} calls[] = {
    {"an empty call", nothing, 16},
    {"lintel_classes_clear", clear, LINTEL_STACK_OTHER},
    {"lintel_merge", merge, LINTEL_STACK_OTHER},
    {"lintel_find", find, LINTEL_STACK_OTHER},
    {"lintel_find_mut", find_mut, LINTEL_STACK_OTHER},
    {"lintel_in_same_set", same, LINTEL_STACK_OTHER},
    {"lintel_remove_set_of", remove_set, LINTEL_STACK_OTHER},
    {"lintel_len", len, LINTEL_STACK_OTHER},
    {"lintel_is_empty", is_empty, LINTEL_STACK_OTHER},
    {"lintel_add_site", add, LINTEL_STACK_OTHER},
    {"lintel_unfold, a chain of 1,024 sites", unfold, LINTEL_STACK_UNFOLD},
    {"lintel_unfold, a chain with eight sources in some sites", unfold_broad, LINTEL_STACK_UNFOLD},
    {"lintel_unfold, of bytes that no call made", unfold_any, LINTEL_STACK_UNFOLD_ANY},
    {"lintel_load, a chain of 14 fields under two equal sites", load, LINTEL_STACK_LOAD},
    {"lintel_load, a class of 4 sites with 8 fields", load_wide, LINTEL_STACK_LOAD},
    {"lintel_load, the same with 8 fields in each", load_large, LINTEL_STACK_LOAD},
    {"lintel_may_overlap", overlap, LINTEL_STACK_OTHER},
    {"lintel_total_constraints", total, LINTEL_STACK_OTHER},
    {"lintel_report", report, LINTEL_STACK_REPORT},
    {"lintel_terms_clear", terms_clear, LINTEL_STACK_OTHER},
    {"lintel_add_edge", edge, LINTEL_STACK_OTHER},
    {"lintel_mark_rec", rec, LINTEL_STACK_OTHER},
    {"lintel_cyclic_terms, a ring of 256 terms", cyclic, LINTEL_STACK_TERMS},
    {"lintel_sheet_begin", begin, LINTEL_STACK_OTHER},
    {"lintel_sheet_feed, a rule with a chain of 14 fields, the end of a set, a line that is none", feed, LINTEL_STACK_SHEET},
    {"lintel_sheet_end, a ring of 256 terms", end, LINTEL_STACK_END},
    {"lintel_sheet_check, the same sheet", check, LINTEL_STACK_SHEET},
};

static uint8_t *low;
static size_t deep;

/* Paints the stack below this frame, calls, and looks how far down it was written. */
static void *run(void *call) {
    volatile uint8_t *at, *sp;
    __asm__ volatile("mov %%rsp, %0" : "=r"(sp));
    for (at = low; at < sp; at++) *at = 0xA5;
    (*(void (**)(void))call)();
    for (at = low; at < sp && *at == 0xA5; at++) {}
    deep = (size_t)(sp - at);
    return 0;
}

static size_t used(void (*call)(void)) {
    size_t size = 8u << 20;
    pthread_attr_t with;
    pthread_t thread;
    low = aligned_alloc(4096, size);
    pthread_attr_init(&with);
    pthread_attr_setstack(&with, low, size);
    if (pthread_create(&thread, &with, run, &call)) exit(1);
    pthread_join(thread, 0);
    free(low);
    return deep;
}

/* Adds a site to the broad set, by the call itself. */
static void add_broad(const uint8_t *site, size_t length) {
    if (lintel_add_site(broad, sizeof broad, broad_count, site, length, 0, answer, LINTEL_ANSWER) || answer[1] != 1) exit(1);
    broad_count++;
}

/* A chain again, of 1,024 sites whose unfolding has LINTEL_UNFOLDING bytes. Each source of a site that is written before another holds a frame
 * of stack until that one is done. So 180 sites, 18 bytes each, are structures of site 0 seven times and then of the site before, one has fewer, and the
 * others, a byte each, are of kind 11. */
static void fill_broad(void) {
    static const uint8_t argument[] = {3, 0};
    add_broad(argument, sizeof argument);
    for (unsigned i = 1; i < LINTEL_SITES; i++) {
        uint8_t some[] = {11, (uint8_t)((i - 1) >> 8), (uint8_t)(i - 1)}, made[20] = {9, 0, 1};
        unsigned sources = i <= 180 ? 8 : i == 181 ? 5 : 0;
        made[3] = (uint8_t)sources;
        memcpy(made + 2 + 2 * sources, some + 1, 2);
        if (sources) add_broad(made, 4 + 2 * sources);
        else add_broad(some, sizeof some);
    }
}

/* The chain again, each site with twelve sources besides that are not lower, so that they write nothing: no set holds such sites. */
static void fill_any(void) {
    memcpy(any, sites, LINTEL_SLOT);
    for (unsigned i = 1; i < LINTEL_SITES; i++) {
        uint8_t *slot = any + LINTEL_SLOT * i;
        memset(slot, 0xFF, LINTEL_SLOT);
        uint8_t head[] = {30, 9, 0, 1, 13}, last[] = {(uint8_t)((i - 1) >> 8), (uint8_t)(i - 1)};
        memcpy(slot, head, sizeof head);
        memcpy(slot + 29, last, sizeof last);
    }
}

/* A chain of 1,024 sites, 64 rules of 32 constraints that all overlap, a ring of 256 terms. */
static void fill(void) {
    static const uint8_t argument[] = {2, 3, 0};
    memcpy(sites, argument, sizeof argument);
    for (unsigned i = 1; i < LINTEL_SITES; i++) {
        uint8_t slot[] = {6, 9, 0, 1, 1, (uint8_t)((i - 1) >> 8), (uint8_t)(i - 1)};
        memcpy(sites + LINTEL_SLOT * i, slot, sizeof slot);
    }
    for (unsigned i = 0; i < LINTEL_RULES; i++) {
        uint64_t *w = words + LINTEL_STRIDE * i;
        w[0] = i;
        w[1] = i % 2;
        w[2] = LINTEL_CONSTRAINED;
        for (unsigned k = 0; k < LINTEL_CONSTRAINED; k++) w[4 + 4 * k] = k;
    }
    for (unsigned t = 0; t < LINTEL_TERMS; t++) lintel_add_edge(table, (uint16_t)t, (uint16_t)((t + 1) % LINTEL_TERMS), answer, LINTEL_ANSWER);
}

static void item(uint64_t a, uint64_t b, uint64_t c) {
    uint64_t *w = items + LINTEL_ITEM * many++;
    w[0] = a;
    w[1] = b;
    w[2] = c;
}

/* Sites 0 and 1 are equal arguments; 2 is a field of 0, and each later one of the one before it: all structures of one field. */
static void fill_set(void) {
    uint8_t arguments[] = {2, 3, 0}, field[] = {4, 10, 0, 0, 0};
    for (unsigned i = 0; i < 16; i++) {
        arguments[2] = (uint8_t)i;
        field[3] = (uint8_t)(i == 2 ? 0 : i - 1);
        memcpy(flat + LINTEL_SLOT * i, arguments, sizeof arguments);
        memcpy(set + LINTEL_SLOT * i, i < 2 ? arguments : field, i < 2 ? sizeof arguments : sizeof field);
    }
    item(65536, 1, 0);
    item(0, 65536 + 9, 1);
    for (unsigned i = 2; i < 15; i++) item(i, 65536 + i, 1);
}

static void line(const char *form, unsigned a, unsigned b) { sprintf(sheet + strlen(sheet), form, a, b); }

/* The set and the rule of fill_set, and 63 rules more, of one constraint: all overlap. Behind the set a line that stops the sheet. */
static void fill_sheet(void) {
    line("01000700\n020300\n020301\n", 0, 0);
    for (unsigned i = 2; i < 16; i++) line("020A%04X00\n", i == 2 ? 0 : i - 1, 0);
    line("030000000000000000000000000F\n0500000001\n04000001000901\n", 0, 0);
    for (unsigned i = 2; i < 15; i++) line("04%04X01%04X01\n", i, i);
    for (unsigned i = 1; i < LINTEL_RULES; i++) line("03%08X000000000000000001\n04000001000901\n", i, 0);
    line("06\n07\n", 0, 0);
    ended[0] = 1;
    memcpy(ring, table, sizeof ring);
}

int main(void) {
    fill();
    fill_set();
    fill_any();
    fill_broad();
    fill_sheet();
    int above = 0;
    for (size_t i = 0; i < sizeof calls / sizeof *calls; i++) {
        size_t bytes = used(calls[i].call);
        printf("| %s | %zu |\n", calls[i].name, bytes);
        if (bytes <= calls[i].most) continue;
        fprintf(stderr, "%s: %zu bytes of stack, and the header says %zu\n", calls[i].name, bytes, calls[i].most);
        above = 1;
    }
    if (above) return 1;
    unfold_broad();
    if (answer[0] != LINTEL_UNFOLDING) return 1;
    cyclic();
    if (answer[0] != LINTEL_TERMS - 1) return 1; /* one has rec */
    load();
    if (answer[0] != 30) return 1;
    load_wide();
    if (answer[0] != 36) return 1;
    if (too_large() != LINTEL_TOO_MANY_CONSTRAINED || answer[0] != 36) return 1;
    begin();
    feed();
    if (answer[1] != 17086 || !state[LINTEL_STOPPED]) return 1;
    end();
    if (answer[0] != LINTEL_END_ROOM) return 1;
    return 0;
}
