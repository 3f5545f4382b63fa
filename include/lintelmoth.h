/* Lintelmoth for the box: the functions of liblintelbox.a (`sh tests/built lintelbox` writes crates/lintelbox/out/liblintelbox.a, for x86-64).
 *
 * Document 01 (docs/01-scope.md) says what each call means; crates/lintelbox has the contracts that are proved of them.
 *
 * - No heap, no state: all memory is lent by the caller for the time of the call. Two lent parts must not overlap.
 * - Every function may be called on any contents. What 01 promises holds of memory that these calls made, from empty on.
 * - The result is 01's number: 0 done, or why the call is refused. `answer` is lent for the words that go with it, at least LINTEL_ANSWER of them:
 *   the answer where the number is 0, else what 01 tells with that number. What a call does not name here is 0; words after the first
 *   LINTEL_ANSWER are left alone.
 * - A refused call leaves all lent memory but `answer` as it was; of lintel_sheet_check the room and the working memory too are excepted. LINTEL_SHORT
 *   leaves `answer` too, and is looked for before all else; lintel_sheet_check may answer it later, and says what it leaves then.
 * - A slice is a pointer and a count of elements (not bytes). A pointer must not be null, with a count of 0 either. A part whose size is written
 *   in brackets is that many elements, and has no count.
 * - A pointer is aligned as its type asks: to 8 bytes for words (uint64_t), to 2 for uint16_t.
 * - Lent memory must have been written before, with any values: static memory has been.
 * - Calls on different memory may run at once, in different threads. Two calls that lend the same memory may too where both lend it as const.
 * - Numbers in words, in parents and in members have the machine's byte order, low byte first. Bodies of sites, unfoldings, sheets and findings have
 *   the sheet's, high byte first.
 * - The archive asks the linker for memcpy and memset, and for nothing else.
 * - It is built for the System V calling convention, with SSE2, and uses the 128 bytes under the stack pointer (the red zone). So an interrupt handler
 *   must not run on the same stack without leaving these bytes alone, and must save the SSE2 registers that it uses.
 */
#ifndef LINTELMOTH_H
#define LINTELMOTH_H

#include <stddef.h>
#include <stdint.h>

#ifdef __cplusplus
extern "C" {
#define LINTEL_PART(n)
#else
#define LINTEL_PART(n) static n
#endif

/* The version of this header and of its archive. It grows where a caller may have to change something. What has a number here is a macro, so that #if can
 * use it. */
#define LINTEL_VERSION 5

/* 01's limits. */
#define LINTEL_SITES 1024          /* sites of a set */
#define LINTEL_SOURCES 8           /* sources of a site */
#define LINTEL_FIELDS 8            /* fields of a constraint */
#define LINTEL_RULES 64            /* rules of a set */
#define LINTEL_ITEMS 32            /* items of a rule */
#define LINTEL_CONSTRAINED 32      /* constrained sites of a kept rule */
#define LINTEL_EQUAL 32            /* equal sites of a kept rule */
#define LINTEL_SETS 64             /* sets of a sheet */
#define LINTEL_TERMS 256           /* term numbers: 0 to 255 */
#define LINTEL_UNFOLDING 4096      /* bytes of an unfolding */

/* Sizes of lent memory. */
#define LINTEL_ANSWER 2            /* words of an answer */
#define LINTEL_SLOT 32             /* bytes of a site; a full set takes LINTEL_SITES of these: 32,768 bytes */
#define LINTEL_STRIDE 196          /* words of a kept rule; a full set takes LINTEL_RULES of these: 12,544 words, 100,352 bytes */
#define LINTEL_ITEM 4              /* words of an item of a rule */
#define LINTEL_REPORT_ROOM 67456   /* bytes that hold any report */
#define LINTEL_ROW 4               /* words of a row of marks */
#define LINTEL_TABLE 1024          /* words of the term table, LINTEL_TERMS rows: 8,192 bytes */
#define LINTEL_STATE 22            /* words in which the reading of a sheet is kept: 176 bytes */
#define LINTEL_HELD 65             /* bytes of a line that is not ended yet */
#define LINTEL_SITES_ROOM 32768    /* bytes for the sites of a sheet's open set: LINTEL_SITES slots */
#define LINTEL_KEPT_ROOM 12544     /* words for its kept rules: LINTEL_RULES strides */
#define LINTEL_ITEMS_ROOM 128      /* words for the items of its open rule: LINTEL_ITEMS of LINTEL_ITEM */
#define LINTEL_STEP_ROOM 67456     /* bytes that hold what any line of a sheet finds: a report */
#define LINTEL_END_ROOM 1803       /* bytes that hold what the end of any sheet finds */

/* Bytes of stack that a call needs at most, from its call on, with some head room. tests/box measures each call on the deepest inputs that we know. */
#define LINTEL_STACK_UNFOLD 650000       /* lintel_unfold, on sites that these calls made */
#define LINTEL_STACK_UNFOLD_ANY 2800000  /* lintel_unfold, on any bytes */
#define LINTEL_STACK_SHEET 36000         /* lintel_sheet_feed, lintel_sheet_check */
#define LINTEL_STACK_LOAD 33000          /* lintel_load */
#define LINTEL_STACK_END 11000           /* lintel_sheet_end */
#define LINTEL_STACK_TERMS 10000         /* lintel_cyclic_terms */
#define LINTEL_STACK_REPORT 5000         /* lintel_report */
#define LINTEL_STACK_OTHER 512           /* every other call */

/* The word of a sheet's state that is 0 until a line stopped the sheet, and then 1. */
#define LINTEL_STOPPED 21

/* The numbers. */
#define LINTEL_DONE 0
#define LINTEL_LAYOUT 1            /* a frame or a body is not as laid out; told: the line. Of lintel_load: an item, counted from 0 */
#define LINTEL_UNKNOWN 2           /* unknown site, or a source not lower; told: that number */
#define LINTEL_ITSELF 3            /* a site joined with itself; told: the site */
#define LINTEL_UNREACHABLE 4       /* told: two sites */
#define LINTEL_HANGING 5           /* told: the lowest such site */
#define LINTEL_ENDLESS 6           /* self-containing; told: the lowest such site */
#define LINTEL_PLACE_USED 8        /* told: the place */
#define LINTEL_REPEATED 9          /* a site repeated in its set, a term in the sheet; told: the line. Only in findings: no call answers it */
/* A limit of 01 is passed, or lent room below it. Told first: the number that was asked for, or the first one past the limit where the asking stops there. */
#define LINTEL_TOO_MANY_SITES 20       /* told: LINTEL_SITES, or the slots that are lent, and one; the item, from 0 (in the rounds the item count), or the line */
#define LINTEL_TOO_MANY_SOURCES 21     /* told: how many; the line */
#define LINTEL_TOO_MANY_FIELDS 22      /* told: how many; the item */
#define LINTEL_TOO_MANY_RULES 23       /* told: LINTEL_RULES and one, or the rules that fit and one; of a report how many */
#define LINTEL_TOO_MANY_ITEMS 24       /* told: how many */
#define LINTEL_TOO_MANY_CONSTRAINED 25 /* told: how many the result has */
#define LINTEL_TOO_MANY_EQUAL 26       /* told: how many the result has */
#define LINTEL_TOO_MANY_SETS 27        /* Only in findings: no call answers it */
#define LINTEL_TERM_TOO_HIGH 28        /* told: the term, the first of two */
#define LINTEL_UNFOLDING_TOO_LONG 29   /* told: the lower of LINTEL_UNFOLDING and the room, and one */
#define LINTEL_SHORT 255               /* none of 01's: lent too little. A lent slice is shorter than the call asks, and nothing was read or changed */

/* The word for a site that was never joined. */
#define LINTEL_NONE 65535

/* Comparing two kept rules. */
#define LINTEL_NO 0
#define LINTEL_YES 1
#define LINTEL_SUBSET 2

/* ---- classes of sites: three parts, made empty by lintel_classes_clear. A site number of LINTEL_SITES or more is 2, told: that number. */

/* Leaves no site joined: every parent LINTEL_SITES, every rank 0, the count 0. */
void lintel_classes_clear(uint16_t parents[LINTEL_PART(LINTEL_SITES)], uint8_t ranks[LINTEL_PART(LINTEL_SITES)], uint16_t *count);

/* answer: the representative of the site's class and the parent links followed. Where the site was never joined: LINTEL_NONE, and 0 links.
 * Changes nothing else. */
uint32_t lintel_find(const uint16_t parents[LINTEL_PART(LINTEL_SITES)], uint16_t site, uint64_t *answer, size_t answer_length);

/* answer: the representative, or LINTEL_NONE. In `parents` every site passed on the way goes directly under the representative. */
uint32_t lintel_find_mut(uint16_t parents[LINTEL_PART(LINTEL_SITES)], uint16_t site, uint64_t *answer, size_t answer_length);

/* Joins the classes of two sites. answer: 1 where they were two, else 0. 3 where they are one site. */
uint32_t lintel_merge(uint16_t parents[LINTEL_PART(LINTEL_SITES)], uint8_t ranks[LINTEL_PART(LINTEL_SITES)], uint16_t *count,
                      uint16_t site, uint16_t other, uint64_t *answer, size_t answer_length);

/* answer: 1 where both sites are in one class, else 0. Changes nothing else. */
uint32_t lintel_in_same_set(const uint16_t parents[LINTEL_PART(LINTEL_SITES)], uint16_t site, uint16_t other,
                            uint64_t *answer, size_t answer_length);

/* Takes the site's class apart. answer: how many members it had; they stand first in `members`, ascending, and the rest of it is left alone.
 * `members` has at least LINTEL_SITES elements, however large the class is: else LINTEL_SHORT. A site that was never joined has none: 0. */
uint32_t lintel_remove_set_of(uint16_t parents[LINTEL_PART(LINTEL_SITES)], uint16_t *count, uint16_t site,
                              uint16_t *members, size_t members_length, uint64_t *answer, size_t answer_length);

/* How many sites are joined. */
uint32_t lintel_len(const uint16_t *count);

/* 1 where no site is joined, else 0. */
uint32_t lintel_is_empty(const uint16_t *count);

/* ---- sites of a set: `sites` is slots of LINTEL_SLOT bytes, a length byte and then the site's body as in a frame 02, kind byte first. The caller
 * keeps `count`, how many slots are used, from 0 on. In a slot the bytes past the body are left alone, and say nothing. */

/* Adds the site with this body. answer: its number; 1 where it is new, and then `count` is to grow by one, else 0. Where it is new its slot, number
 * `count`, is written. 1 told `line`, 2, 21, 28, 20 as 01 says; 20 too where `sites` is too short for the sites that there are then. */
uint32_t lintel_add_site(uint8_t *sites, size_t sites_length, uint16_t count, const uint8_t *body, size_t body_length, uint32_t line,
                         uint64_t *answer, size_t answer_length);

/* Writes the unfolding of a site to the start of `room`, and leaves the rest of it alone. answer: how many bytes. LINTEL_SHORT where `sites` ends before
 * the last of the `count` slots; 2; 29 where it has over LINTEL_UNFOLDING bytes or `room` less. The call with the deepest stack: LINTEL_STACK_UNFOLD. */
uint32_t lintel_unfold(const uint8_t *sites, size_t sites_length, uint16_t count, uint16_t site, uint8_t *room, size_t room_length,
                       uint64_t *answer, size_t answer_length);

/* ---- kept rules of a set: `words` is strides of LINTEL_STRIDE words, in the order in which the rules were kept.
 * A stride: place; priority, its sign bit turned over; how many constrained sites; how many equal sites; from word 4 on four words for each
 * constrained site, ascending: site, kind * 65536 + type (the name of a ConstPrim), and two words (Variant: variant, fields; Struct: fields, 0;
 * ConstBool: value, 0; ConstInt: high word, low word; others 0, 0); from word 132 on two words for each equal site, ascending: site, lowest
 * member of its class. The words of a stride that its counts do not use are left alone, and say nothing. LINTEL_SHORT where the words end before the
 * rules that are asked for; lintel_load then answers 23. */

/* Loads a rule into the set of the first `count` sites and the first `kept` rules. answer: how many sites there are then, and `kept` is to grow by one.
 * The sites that are new stand in their slots, the rule in stride `kept`. `items` has LINTEL_ITEM words for each of the `many` items: of a constraint
 * the site and its three words as in a stride, of an equality 65536 + one site, then the other, 0, 0. Each number is within its width (sites, types, names
 * and variants two bytes, fields one, a bool 0 or 1), and a word that the kind does not use is 0: any other words are not as laid out.
 * Looked for in this order: LINTEL_SHORT, where `items` ends before its last item; 1, told the first of the `many` items that is not as laid out; 23,
 * where `kept` is LINTEL_RULES or more, or `words` ends before the end of stride `kept`; 20 told `count`, where `count` is over LINTEL_SITES; 24, where
 * `many` is over LINTEL_ITEMS; 8; then the items as written, each 2, 22, 4, 20; then 5, 4, 6, in the rounds 20, and 25, 26 as 01 says; last 20, where
 * `sites` is too short for the sites that there are then, told: its slots and one, and `many`. */
uint32_t lintel_load(uint8_t *sites, size_t sites_length, uint16_t count, uint64_t *words, size_t words_length, uint32_t kept, uint32_t place,
                     int64_t priority, const uint64_t *items, size_t items_length, uint8_t many, uint64_t *answer, size_t answer_length);

/* answer: LINTEL_NO, LINTEL_YES or LINTEL_SUBSET. */
uint32_t lintel_may_overlap(const uint64_t *words, size_t words_length, uint32_t rule, uint32_t other, uint64_t *answer, size_t answer_length);

/* answer: constrained plus equal sites. */
uint32_t lintel_total_constraints(const uint64_t *words, size_t words_length, uint32_t rule, uint64_t *answer, size_t answer_length);

/* The report of the first `count` rules of a set with these flags (1 multi, 2 rec, 3 both), as lines of findings 12 and 13. answer: how many bytes;
 * they stand first in `room`, and the rest of it is left alone. `room` has at least LINTEL_REPORT_ROOM bytes. 23 where there are too many rules, their
 * words being there. Flags over 3 are not refused: odd flags are those of a multi term, with an empty report, and no other bit is looked at. */
uint32_t lintel_report(const uint64_t *words, size_t words_length, uint32_t count, uint8_t flags, uint8_t *room, size_t room_length,
                       uint64_t *answer, size_t answer_length);

/* ---- terms: `table` has a row of LINTEL_ROW words for each term, a mark for each term that an edge runs to; `recs` is one such row, the terms
 * with rec. Mark t is bit t % 64 of word t / 64. A term over 255 is 28. */

/* Leaves both without marks. */
void lintel_terms_clear(uint64_t table[LINTEL_PART(LINTEL_TABLE)], uint64_t recs[LINTEL_PART(LINTEL_ROW)]);

/* Adds the edge that runs from one term to another. answer: nothing. */
uint32_t lintel_add_edge(uint64_t table[LINTEL_PART(LINTEL_TABLE)], uint16_t from, uint16_t to, uint64_t *answer, size_t answer_length);

/* Marks a term that has rec. answer: nothing. */
uint32_t lintel_mark_rec(uint64_t recs[LINTEL_PART(LINTEL_ROW)], uint16_t term, uint64_t *answer, size_t answer_length);

/* The cyclic terms without rec. answer: how many; they stand first in `found`, ascending, then zeros up to LINTEL_TERMS, and the rest of it is left
 * alone. `found` has at least LINTEL_TERMS elements. */
uint32_t lintel_cyclic_terms(const uint64_t table[LINTEL_PART(LINTEL_TABLE)], const uint64_t recs[LINTEL_PART(LINTEL_ROW)],
                             uint16_t *found, size_t found_length, uint64_t *answer, size_t answer_length);

/* ---- sheets: read in pieces of any size (begin, feed, feed, .., end), in constant memory, or whole (check). What is found stands first in `room`, as
 * lines of digits, each ended by LF; the rest of the room is left alone. The whole sheet's findings are the lines of all calls, in order.
 *
 * Between two calls of a sheet the caller keeps, and does not touch: `state`, `held`, `sites`, `words`, `items`, `table`. What is lent behind the
 * named sizes is left alone. A sheet needs nothing of another, so two may be read in turn, each in its own memory.
 *
 * LINTEL_SHORT where anything lent is shorter than its size; then nothing is read or changed. The number is else 0 on all that these calls left. */

/* Before the first piece: clears the state, the held line and the term table. The memory of sites, words and items may hold anything. */
uint32_t lintel_sheet_begin(uint64_t *state, size_t state_length, uint8_t *held, size_t held_length, uint64_t table[LINTEL_PART(LINTEL_TABLE)]);

/* Reads a piece of the sheet. answer: how many of its bytes were read; how many bytes of findings stand in `room`. Where fewer were read than handed
 * over, the room left was too short for another line: take the findings, and feed the rest. A room of LINTEL_STEP_ROOM is enough; a longer one takes the
 * findings of more lines at a time. Of a piece that is not empty a byte at least is read, so that a loop over the rest ends. Once a sheet stopped
 * (state[LINTEL_STOPPED] is 1, and a finding 1F was its last), all further bytes count as read and find nothing. */
uint32_t lintel_sheet_feed(uint64_t *state, size_t state_length, uint8_t *held, size_t held_length, uint8_t *sites, size_t sites_length,
                           uint64_t *words, size_t words_length, uint64_t *items, size_t items_length, uint64_t table[LINTEL_PART(LINTEL_TABLE)],
                           const uint8_t *piece, size_t piece_length, uint8_t *room, size_t room_length, uint64_t *answer, size_t answer_length);

/* The sheet ends here. answer: how many bytes of findings stand in `room`, of at least LINTEL_END_ROOM; none where the sheet stopped. The state and
 * the table are left as they are: where the end itself is refused (a set is open, or the last line has no LF) the findings are a 1F, and
 * state[LINTEL_STOPPED] stays 0. */
uint32_t lintel_sheet_end(const uint64_t *state, size_t state_length, const uint8_t *held, size_t held_length,
                          const uint64_t table[LINTEL_PART(LINTEL_TABLE)], uint8_t *room, size_t room_length, uint64_t *answer, size_t answer_length);

/* A sheet that is there whole. answer: how many bytes of findings stand in `room`. A room of LINTEL_STEP_ROOM more than the findings is always enough;
 * one under LINTEL_STEP_ROOM is LINTEL_SHORT, whatever the sheet, and then nothing was read. LINTEL_SHORT too, with two zeros in `answer`, where the room
 * turned out too short: it then holds the first findings, in whole lines, and where they end is not told; in a room that was zeros before they end at its
 * first 0. What sites, words, items and table hold before does not
 * matter, and what they hold after is of no use. */
uint32_t lintel_sheet_check(const uint8_t *sheet, size_t sheet_length, uint8_t *sites, size_t sites_length, uint64_t *words, size_t words_length,
                            uint64_t *items, size_t items_length, uint64_t table[LINTEL_PART(LINTEL_TABLE)], uint8_t *room, size_t room_length,
                            uint64_t *answer, size_t answer_length);

#ifdef __cplusplus
}
#endif

#endif
