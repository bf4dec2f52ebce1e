/* Mogedorn for C: every exact cover of a set of items by given packages, kept as one decision diagram in memory that the caller lends.
 *
 * Link with libmogedorn.a (`pkg-config --cflags --libs mogedorn`); it needs nothing but memset. x86-64 Linux, System V calling convention.
 *
 * Every entry is proved to do what the crate `engine` (or `bids`, or `conversion`) promises, for any values of its arguments: see docs/STATEMENTS.md. What a C caller owes,
 * since nothing can check it here:
 *   - a pointer is not null, also where its length is 0; it is aligned for its type and points to as many elements as the length after it says, optional and d
 *     to three;
 *   - what an entry writes to (a pointer without const) overlaps nothing else that the same call is lent;
 *   - while a call runs, no other thread writes to what it is lent, and none reads what it may write to;
 *   - the thread has the stack that a call needs, see below.
 *
 * Ownership. Everything is lent for the time of the call. Nothing is kept, allocated or freed, and there is no state between calls but the table.
 * Threads. The entries are reentrant. Any number of calls may run at once on different tables; calls that only read (check, count, measure, pick, place,
 * cheapest, closest) may share a table, each with its own working words and page.
 *
 * An item set is three 64-bit words, lowest first: item i is bit i % 64 of word i / 64.
 *
 * Optional items. A slot that no school takes may go to the public: every call is lent a set of optional items, and all other items are compulsory. A timetable
 * covers an item set D when its packages lie inside D, each compulsory item of D is in just one of them and each optional item of D in at most one. With an
 * empty optional set that is an exact cover.
 *
 * Order. Every call is lent an order of the items, a list of each item below M just once, and what is early in it is tried first: the diagram tends to be
 * small where contested items come early. The lead of a package is its earliest compulsory item in the lent order. Precedence: package p comes before q when
 * p's lead is earlier, or these are equal and p is lower. Which timetables cover a set does not depend on the order, and neither does a set's place in
 * cover's memo; steps, nodes, the order in which packages are written and timetables listed, and every place in the listing do. In the order 0 .. M - 1
 * earliest is lowest.
 *
 * Optional set and order both decide whether a table is sound. Lend one optional set and one order to all calls on a table, as one list of packages, but that a
 * withdrawal shortens the list. What is promised of a whole history of calls is promised of one that is lent one list, without a withdrawal. A table made under
 * another order is refused (4) where its labels no longer ascend in precedence; where they still do it is sound under this order too.
 *
 * Most callers will keep m, packages, optional set and order in one struct and call the inline functions at the end, mogedorn_week_cover and so on: there a
 * null order is 0 .. M - 1. To an entry itself pass the order explicitly, whatever it is: its pointer is not null, and its length is M.
 *
 * The arguments that most entries share, by document 01's names:
 *   m                        M, the number of items: 0 to 192
 *   packages, packages_len   the N packages, 0 to 512, as item sets of three words each, and none is empty. packages_len counts the words: N is
 *                            packages_len / 3 rounded down, and one or two words left over mean nothing
 *   optional                 the optional items, three words: items below M (29), and each package has an item that is not among them (30)
 *   order, order_len         the order of the items: each item below M just once, one byte each, so that order_len is M; any other list is refused (34), and
 *                            for M 0 any but the empty one
 *   table, table_len         the node table, all zeros at first; c nodes need 1 + 3 c words, and no more than 65534 nodes count. Keep it as the calls
 *                            leave it. Every call checks the whole table first and reads every word: lend no longer a table than is needed
 *   work, work_len           working words: their contents mean nothing before and after a call. With too few the call is refused (8)
 *   answer, a, b             numbers that earlier calls on this table gave, or 0 (no timetable) or 1 (the empty timetable alone)
 *   page, page_len           where a timetable is written: its packages in precedence, at the start. The rest of the page is unchanged
 *
 * A refused call leaves table, page, buffers and the list of answers as they were. The first line of the table of refusals that applies is given, and only then.
 *
 * Stack and time are not proved, only that every call ends. Stack: measured by `make stack`: each entry on a stack filled with a pattern, on inputs that make
 * it go deepest, the lowest changed byte counted; here rounded up, as the toolchain before this one built them (this one's archive took as much or less at each
 * entry). Lend a thread that much and what its own code takes. The recursion is bounded: by 192 items in
 * cover, by 512 packages in the others. Time: cover is bounded by its step limit; count, measure, pick, place, cheapest, closest, with, without and withdraw go through
 * the table; either, both and only may take very long where too few words are lent for large answers, see there, which was not met with join. A table made on
 * purpose to fill one bucket of the node index is checked in quadratic time: 65,534 nodes in 4.5 s.
 */
#ifndef MOGEDORN_H
#define MOGEDORN_H

#include <stddef.h>
#include <stdint.h>

#ifdef __cplusplus
extern "C" {
#endif

/* The stack in bytes that suffices for every entry. */
#define MOGEDORN_STACK 786432

/* The refusals [the numbers of documents 01 and 02]; docs/REFUSALS.md says what to do about each. Of those that the calls on a table give, the first one here that
   applies is given. To a week as read_bids or read_bids2 gives it no call says 1, 2, 29 or 30, nor 34 in the order 0 .. M - 1. 28 is not in use, and will not be:
   it stood for a file that the reader accepts and the engine refuses, and there is none. */
enum {
    MOGEDORN_OVERSIZE = 1,         /* M above 192 or N above 512 */
    MOGEDORN_STRAY = 2,            /* an empty package, or an item of M or above in one */
    MOGEDORN_STRAY_OPTIONAL = 29,  /* an optional item of M or above */
    MOGEDORN_ALL_OPTIONAL = 30,    /* a package without a compulsory item */
    MOGEDORN_DISORDERED = 34,      /* the order is not each item below M just once */
    MOGEDORN_COST_LIST = 3,        /* its length is not N */
    MOGEDORN_SPOILT = 4,           /* the table is not sound */
    MOGEDORN_UNKNOWN_ANSWER = 5,   /* an operand, or a listed answer of withdraw, that the table does not know */
    MOGEDORN_UNKNOWN_PACKAGE = 6,  /* a package of N or more; in place and closest also a list out of precedence or repeating */
    MOGEDORN_NOT_RISING = 36,      /* withdraw: the list of withdrawn packages repeats, does not rise or has a package of N or more */
    MOGEDORN_UNKNOWN_ITEM = 7,     /* an item of M or above in the set to cover */
    MOGEDORN_OVERLAP = 35,         /* join: a package on a node below one answer, its own included, shares an item with one below the other */
    MOGEDORN_SHORT_WORK = 8,       /* too few working words */
    MOGEDORN_SPENT = 9,            /* more steps than the limit, counted as if the table had no end */
    MOGEDORN_FULL = 10,            /* the answer's nodes that are not yet in the table outnumber the free places */
    MOGEDORN_UNCOUNTABLE = 11,     /* more than 18446744073709551615 timetables */
    MOGEDORN_PAST_THE_END = 12,    /* pick or measure of k at or above the count */
    MOGEDORN_NOTHING = 13,         /* cheapest or closest of 0 */
    MOGEDORN_ABSENT = 14,          /* place of a timetable not in the answer */
    MOGEDORN_SHORT_PAGE = 15,      /* the timetable is longer than the page; of read_bids and read_bids2: room for fewer than N packages or costs; of
                                      convert_up and convert_down: the file is longer than the buffer */
    MOGEDORN_BIDS_CUT = 20,        /* under 13 bytes, or not the length that its header asks */
    MOGEDORN_BIDS_MARK = 21,       /* not PSB */
    MOGEDORN_BIDS_VERSION = 22,    /* another version than the call's */
    MOGEDORN_BIDS_CHECK = 23,      /* the check differs */
    MOGEDORN_BIDS_SIZE = 24,       /* S + T above 64 or N above 512 */
    MOGEDORN_BIDS_SCHOOL_TWICE = 25,
    MOGEDORN_BIDS_STRAY = 26,      /* a school that is not listed, or a slot of T or above */
    MOGEDORN_BIDS_PACKAGE_TWICE = 27,
    MOGEDORN_BIDS_STRAY_OPTIONAL = 31, /* an optional slot of T or above */
    MOGEDORN_BIDS_WIDE_SITE = 32,      /* convert_down: a listed school's site above 255 */
    MOGEDORN_BIDS_OPTIONAL_SLOTS = 33  /* convert_down: a slot is optional */
};

/* In each struct a refusal of 0 means that the call answered; after a refusal all other fields are 0. */

/* Of the calls that make an answer. */
typedef struct {
    uint32_t refusal;
    uint32_t answer; /* the number of the set of timetables: equal numbers, equal sets */
    uint32_t steps;  /* entries into Search; 0 outside cover */
    uint32_t made;   /* nodes made, the growth of word 0: exactly those below the answer, its own included, that the table did not have */
} mogedorn_report;

/* Of count, measure, place, withdraw, convert_up and convert_down. */
typedef struct {
    uint32_t refusal;
    uint64_t value;
} mogedorn_number;

/* Of pick and cheapest. */
typedef struct {
    uint32_t refusal;
    uint32_t cost;     /* of cheapest; 0 of pick */
    uint64_t packages; /* how many packages were written to the page */
} mogedorn_timetable;

/* Of closest. */
typedef struct {
    uint32_t refusal;
    uint32_t difference; /* the packages that only one of the two has, the list or what was written */
    uint64_t packages;   /* how many packages were written to the page */
} mogedorn_comparison;

/* Of read_bids and read_bids2. */
typedef struct {
    uint32_t refusal;
    uint32_t schools;     /* S: school j is item j */
    uint32_t slots;       /* T: slot t is item S + t */
    uint64_t packages;    /* N */
    uint64_t optional[3]; /* the optional items, as a week takes them; none of a version 1 file */
} mogedorn_bids;

/* Whether the table is sound: 0, or the refusal. Refusals 1, 2, 29, 30, 34, 4. Stack: 266 KB. */
uint32_t mogedorn_check(uint32_t m, const uint64_t *packages, size_t packages_len, const uint64_t optional[3], const uint8_t *order, size_t order_len,
                        const uint32_t *table, size_t table_len);

/* Writes the set of all items below m to d, what cover of a whole week takes; of an m above 192 the set of 192 items. Stack: 1 KB. */
void mogedorn_all_items(uint32_t m, uint64_t d[3]);

/* The timetables that cover the item set d; where d has no compulsory item that is the empty one alone (answer 1). At most `limit` steps. Search tries the
   packages of the compulsory item left that is earliest in the lent order, and the memo goes by all items left. Four working words are one place of it, three
   for a set and one for its answer: at least 4, P is work_len / 4 rounded down, and the more places the fewer steps. Lend an odd, best a prime number of
   places: a set's place is its value as a 192-bit number modulo P, whatever the order. Refusals 1, 2, 29, 30, 34, 4, 7, 8, 9, 10. Stack: 351 KB. */
mogedorn_report mogedorn_cover(uint32_t m, const uint64_t *packages, size_t packages_len, const uint64_t optional[3], const uint8_t *order, size_t order_len,
                               uint32_t *table, size_t table_len, const uint64_t d[3], uint32_t limit, uint64_t *work, size_t work_len);

/* The timetables of a or b; of a and b; of a and not of b. At least 2 working words. Refusals 1, 2, 29, 30, 34, 4, 5, 8, 10. Stack: 642 KB.
   Results of pairs of nodes are remembered in the working words where these are 131,072 or more, two results a word, otherwise in 65,536 places of the
   call's own. With too few for two large answers results are computed again and again. Lend a * b / 2p words or more, and 131,072 at least, where a and b
   are here the nodes of the two answers and p the packages on them. Measured by `make words` on answers made to meet in as many pairs as they can, seconds of `both`, - is over 5:
     nodes of the two   2 words   131072    262144   1048576   4194304
                 4638      0.04     0.01      0.01      0.02      0.03
                 6686         -     0.01      0.02      0.03      0.05
                14878         -     0.32      0.04      0.06      0.12
                29214         -     0.60      0.13      0.10      0.22
                57886         -     0.95      0.15      0.20      0.42 */
mogedorn_report mogedorn_either(uint32_t m, const uint64_t *packages, size_t packages_len, const uint64_t optional[3], const uint8_t *order, size_t order_len,
                                uint32_t *table, size_t table_len, uint32_t a, uint32_t b, uint64_t *work, size_t work_len);
mogedorn_report mogedorn_both(uint32_t m, const uint64_t *packages, size_t packages_len, const uint64_t optional[3], const uint8_t *order, size_t order_len,
                              uint32_t *table, size_t table_len, uint32_t a, uint32_t b, uint64_t *work, size_t work_len);
mogedorn_report mogedorn_only(uint32_t m, const uint64_t *packages, size_t packages_len, const uint64_t optional[3], const uint8_t *order, size_t order_len,
                              uint32_t *table, size_t table_len, uint32_t a, uint32_t b, uint64_t *work, size_t work_len);

/* The timetables of a that hold the package p; that do not. At least 2 working words. Refusals 1, 2, 29, 30, 34, 4, 5, 6, 8, 10. Stack: 470 KB. */
mogedorn_report mogedorn_with(uint32_t m, const uint64_t *packages, size_t packages_len, const uint64_t optional[3], const uint8_t *order, size_t order_len,
                              uint32_t *table, size_t table_len, uint32_t a, uint32_t p, uint64_t *work, size_t work_len);
mogedorn_report mogedorn_without(uint32_t m, const uint64_t *packages, size_t packages_len, const uint64_t optional[3], const uint8_t *order, size_t order_len,
                                 uint32_t *table, size_t table_len, uint32_t a, uint32_t p, uint64_t *work, size_t work_len);

/* Join: every union of a timetable of a and one of b. Two halves of a week, or two pools, are planned on separate items and become one programme: no package on
   a node below a, its own node included, may share an item with one below b (35). Optional items count too; 0 and 1 have no nodes. 35 is told whatever working
   words are lent. Join with 1 is the other answer, with 0 it is 0. The count of a join is the product of the two counts. It may exceed 64 bits: then count,
   measure, pick and place say 11; cheapest and closest still answer. At least one working word more than the larger of the two numbers, and at least 2. Results of
   pairs are remembered as by either; but each pair that meets is a node of the join, so that there are never more than 65,534, and more words were not faster: by
   `make words` 57,055 nodes are made in 0.002 s with 6,000 words. Refusals 1, 2, 29, 30, 34, 4, 5, 35, 8, 10. Stack: 642 KB. */
mogedorn_report mogedorn_join(uint32_t m, const uint64_t *packages, size_t packages_len, const uint64_t optional[3], const uint8_t *order, size_t order_len,
                              uint32_t *table, size_t table_len, uint32_t a, uint32_t b, uint64_t *work, size_t work_len);

/* How many timetables the answer holds. At least answer + 1 working words. Refusals 1, 2, 29, 30, 34, 4, 5, 8, 11. Stack: 266 KB. */
mogedorn_number mogedorn_count(uint32_t m, const uint64_t *packages, size_t packages_len, const uint64_t optional[3], const uint8_t *order, size_t order_len,
                               const uint32_t *table, size_t table_len, uint32_t answer, uint64_t *work, size_t work_len);

/* How many packages the k-th timetable has, in listing order, from 0: what pick returns on a page with so many places or more; on a shorter one pick is
   refused (15). At least answer + 1 working words. Refusals 1, 2, 29, 30, 34, 4, 5, 8, 11, 12. Stack: 266 KB. */
mogedorn_number mogedorn_measure(uint32_t m, const uint64_t *packages, size_t packages_len, const uint64_t optional[3], const uint8_t *order, size_t order_len,
                                 const uint32_t *table, size_t table_len, uint32_t answer, uint64_t k, uint64_t *work, size_t work_len);

/* The k-th timetable in listing order, from 0, written to the page. At least answer + 1 working words. Refusals 1, 2, 29, 30, 34, 4, 5, 8, 11, 12, 15.
   Stack: 266 KB. */
mogedorn_timetable mogedorn_pick(uint32_t m, const uint64_t *packages, size_t packages_len, const uint64_t optional[3], const uint8_t *order, size_t order_len,
                                 const uint32_t *table, size_t table_len, uint32_t answer, uint64_t k, uint64_t *work, size_t work_len, uint16_t *page,
                                 size_t page_len);

/* The k of a timetable, given as its packages in precedence. At least answer + 1 working words. Refusals 1, 2, 29, 30, 34, 4, 5, 6, 8, 11, 14.
   Stack: 266 KB. */
mogedorn_number mogedorn_place(uint32_t m, const uint64_t *packages, size_t packages_len, const uint64_t optional[3], const uint8_t *order, size_t order_len,
                               const uint32_t *table, size_t table_len, uint32_t answer, const uint16_t *list, size_t list_len, uint64_t *work,
                               size_t work_len);

/* The timetable of least cost, the first listed of equals, written to the page. `costs` has one cost for each package. At least answer + 1 working words.
   Refusals 1, 2, 29, 30, 34, 3, 4, 5, 8, 13, 15. Stack: 266 KB. */
mogedorn_timetable mogedorn_cheapest(uint32_t m, const uint64_t *packages, size_t packages_len, const uint64_t optional[3], const uint8_t *order,
                                     size_t order_len, const uint16_t *costs, size_t costs_len, const uint32_t *table, size_t table_len, uint32_t answer,
                                     uint64_t *work, size_t work_len, uint16_t *page, size_t page_len);

/* The timetable of the answer that is closest to a list of packages, such as last term's timetable: of those that differ from the list in the fewest packages,
   counting those in one but not in the other, the first listed, written to the page. The list has packages below N in precedence, none twice (6), and no more is
   asked of it: it need not be a timetable of the answer, may leave items out or cover them twice, and may be empty. A timetable of the answer gives itself, with
   the difference 0. The page must not overlap the list. It answers also where count says 11. At least answer + 1 working words.
   Refusals 1, 2, 29, 30, 34, 4, 5, 6, 8, 13, 15. Stack: 266 KB. */
mogedorn_comparison mogedorn_closest(uint32_t m, const uint64_t *packages, size_t packages_len, const uint64_t optional[3], const uint8_t *order,
                                     size_t order_len, const uint32_t *table, size_t table_len, uint32_t answer, const uint16_t *list, size_t list_len,
                                     uint64_t *work, size_t work_len, uint16_t *page, size_t page_len);

/* Packages withdrawn in mid-term. `gone` lists them, rising, each below N (36); `answers` lists the answers that are still in use, in any order and also repeating,
   each a number that the table knows (5). Each entry is replaced, in place, by the number of the answer that holds those of its timetables that have no withdrawn
   package. The packages that remain are numbered from 0 in their old order, in the table too; of the nodes only those below the new entries stay, and behind them
   the table has zeros. The value is how many nodes are left, never more than before, so that it does not say full (10).
   Afterwards lend the list of packages without the withdrawn ones, and such a list of costs, with the same m, optional set and order: to the old list the table
   may be refused (4), or not and mean something else. Timetables written down before have the old numbers.
   List every answer still in use and no other: a number that was not listed is void afterwards, though it may be one that the table knows and is then not refused;
   and what is listed without need takes room. 0 and 1 need not be listed and stay what they are. No answers listed leave an empty table.
   With an empty list of withdrawn packages (a pointer that is not null, the length 0) packages and timetables stay, and only nodes that no listed answer needs go:
   this makes room where a call says full. At least n + 2 working words, n the nodes before: word 0 of the table. `answers` and the table must not overlap.
   Refusals 1, 2, 29, 30, 34, 4, 5, 36, 8. Stack: 268 KB. */
mogedorn_number mogedorn_withdraw(uint32_t m, const uint64_t *packages, size_t packages_len, const uint64_t optional[3], const uint8_t *order, size_t order_len,
                                  uint32_t *table, size_t table_len, const uint16_t *gone, size_t gone_len, uint32_t *answers, size_t answers_len,
                                  uint64_t *work, size_t work_len);

/* Bids files have two versions; docs/FORMAT.md has both, byte by byte. The version of a file is the number in its bytes 3 and 4, the low byte first. Each call
   below takes files of one version and refuses all others (22). */

/* Reads a bids file of version 1, or of version 2: its N packages as item sets, three words each, and their costs, to the start of the buffers, whose rest is
   unchanged. The buffers have at least 3 N words and N costs (15). Then m is schools + slots, at most 64; copy the field optional to week.optional. Only a file
   of version 2 can name optional slots, and none names an order. Refusals are in the order of their tests: the first 20 is for under 13 bytes, the second
   for another length than the header asks. Stack: 1 KB. */

/* Version 1. Refusals 20, 21, 22, 24, 20, 23, 25, 26, 27, 15. */
mogedorn_bids mogedorn_read_bids(const uint8_t *file, size_t file_len, uint64_t *packages, size_t packages_len, uint16_t *costs, size_t costs_len);

/* Version 2. Refusals 20, 21, 22, 24, 20, 23, 31, 25, 26, 27, 15. */
mogedorn_bids mogedorn_read_bids2(const uint8_t *file, size_t file_len, uint64_t *packages, size_t packages_len, uint16_t *costs, size_t costs_len);

/* Writes a bids file in the other version, up from 1 to 2 or down from 2 to 1, to the start of out, whose rest is unchanged: the same slots, schools, packages
   and costs in their order, an empty optional set going up, and a check computed anew. The value is the length written, 21 + 3 S + 13 N up and
   13 + 2 S + 12 N down. A file goes down only where every school listed, also one without a package, has a site of at most 255 (32), and no slot is
   optional (33). There and back restores every byte. 6,869 bytes are enough for out going up, 6,285 going down. The refusals are those of the reader of the version
   that the call takes, but 15, in its order; then, going down, 32 and 33; last 15, where out is shorter than the file to write. Stack: 1 KB. */

/* Up. Refusals 20, 21, 22, 24, 20, 23, 25, 26, 27, 15. */
mogedorn_number mogedorn_convert_up(const uint8_t *file, size_t file_len, uint8_t *out, size_t out_len);

/* Down. Refusals 20, 21, 22, 24, 20, 23, 31, 25, 26, 27, 32, 33, 15. */
mogedorn_number mogedorn_convert_down(const uint8_t *file, size_t file_len, uint8_t *out, size_t out_len);

/* What every call on a table is lent besides it, in one struct. Later versions may add fields, and a field of zeros will mean what held before there was one. So
   start from zeros and name the fields that you set: mogedorn_week week = {.m = .., .packages = .., .packages_len = ..}; in C++ before C++20 mogedorn_week
   week = {}; and then week.m = .., and so on. */
typedef struct {
    uint32_t m;
    const uint64_t *packages; /* null: no packages, whatever packages_len says */
    size_t packages_len;
    uint64_t optional[3];     /* all zeros: no item is optional; from a bids file: the field optional of mogedorn_bids */
    const uint8_t *order;     /* null: 0 .. m - 1, whatever order_len says */
    size_t order_len;
} mogedorn_week;

/* The entries with a week in place of m, packages, optional set and order. Only the entries are proved. These functions just pass on what they are lent, a word
   of their own where the pointer to packages is null, and a list of their own where that to the order is; each returns what its entry returns. */

static inline const uint64_t *mogedorn_week_packages(const mogedorn_week *week) {
    static const uint64_t none = 0;
    return week->packages ? week->packages : &none;
}

static inline const uint8_t *mogedorn_week_order(const mogedorn_week *week) {
    static const uint8_t plain[192] = {
        0, 1, 2, 3, 4, 5, 6, 7, 8, 9, 10, 11, 12, 13, 14, 15, 16, 17, 18, 19, 20, 21, 22, 23,
        24, 25, 26, 27, 28, 29, 30, 31, 32, 33, 34, 35, 36, 37, 38, 39, 40, 41, 42, 43, 44, 45, 46, 47,
        48, 49, 50, 51, 52, 53, 54, 55, 56, 57, 58, 59, 60, 61, 62, 63, 64, 65, 66, 67, 68, 69, 70, 71,
        72, 73, 74, 75, 76, 77, 78, 79, 80, 81, 82, 83, 84, 85, 86, 87, 88, 89, 90, 91, 92, 93, 94, 95,
        96, 97, 98, 99, 100, 101, 102, 103, 104, 105, 106, 107, 108, 109, 110, 111, 112, 113, 114, 115, 116, 117, 118, 119,
        120, 121, 122, 123, 124, 125, 126, 127, 128, 129, 130, 131, 132, 133, 134, 135, 136, 137, 138, 139, 140, 141, 142, 143,
        144, 145, 146, 147, 148, 149, 150, 151, 152, 153, 154, 155, 156, 157, 158, 159, 160, 161, 162, 163, 164, 165, 166, 167,
        168, 169, 170, 171, 172, 173, 174, 175, 176, 177, 178, 179, 180, 181, 182, 183, 184, 185, 186, 187, 188, 189, 190, 191,
    };
    return week->order ? week->order : plain;
}

/* Of an m above 192, which the entry refuses, no more than the list has. */
static inline size_t mogedorn_week_order_len(const mogedorn_week *week) {
    return week->order ? week->order_len : week->m < 192 ? week->m : 192;
}

/* The arguments that a week stands for. */
#define MOGEDORN_LENT(week)                                                                                 \
    (week)->m, mogedorn_week_packages(week), (week)->packages ? (week)->packages_len : 0, (week)->optional, \
        mogedorn_week_order(week), mogedorn_week_order_len(week)

static inline uint32_t mogedorn_week_check(const mogedorn_week *week, const uint32_t *table, size_t table_len) {
    return mogedorn_check(MOGEDORN_LENT(week), table, table_len);
}

/* Writes the set of all items of the week to d. */
static inline void mogedorn_week_all(const mogedorn_week *week, uint64_t d[3]) {
    mogedorn_all_items(week->m, d);
}

static inline mogedorn_report mogedorn_week_cover(const mogedorn_week *week, uint32_t *table, size_t table_len, const uint64_t d[3], uint32_t limit,
                                                  uint64_t *work, size_t work_len) {
    return mogedorn_cover(MOGEDORN_LENT(week), table, table_len, d, limit, work, work_len);
}

static inline mogedorn_report mogedorn_week_either(const mogedorn_week *week, uint32_t *table, size_t table_len, uint32_t a, uint32_t b, uint64_t *work,
                                                   size_t work_len) {
    return mogedorn_either(MOGEDORN_LENT(week), table, table_len, a, b, work, work_len);
}

static inline mogedorn_report mogedorn_week_both(const mogedorn_week *week, uint32_t *table, size_t table_len, uint32_t a, uint32_t b, uint64_t *work,
                                                 size_t work_len) {
    return mogedorn_both(MOGEDORN_LENT(week), table, table_len, a, b, work, work_len);
}

static inline mogedorn_report mogedorn_week_only(const mogedorn_week *week, uint32_t *table, size_t table_len, uint32_t a, uint32_t b, uint64_t *work,
                                                 size_t work_len) {
    return mogedorn_only(MOGEDORN_LENT(week), table, table_len, a, b, work, work_len);
}

static inline mogedorn_report mogedorn_week_with(const mogedorn_week *week, uint32_t *table, size_t table_len, uint32_t a, uint32_t p, uint64_t *work,
                                                 size_t work_len) {
    return mogedorn_with(MOGEDORN_LENT(week), table, table_len, a, p, work, work_len);
}

static inline mogedorn_report mogedorn_week_without(const mogedorn_week *week, uint32_t *table, size_t table_len, uint32_t a, uint32_t p, uint64_t *work,
                                                    size_t work_len) {
    return mogedorn_without(MOGEDORN_LENT(week), table, table_len, a, p, work, work_len);
}

static inline mogedorn_report mogedorn_week_join(const mogedorn_week *week, uint32_t *table, size_t table_len, uint32_t a, uint32_t b, uint64_t *work,
                                                 size_t work_len) {
    return mogedorn_join(MOGEDORN_LENT(week), table, table_len, a, b, work, work_len);
}

static inline mogedorn_number mogedorn_week_count(const mogedorn_week *week, const uint32_t *table, size_t table_len, uint32_t answer, uint64_t *work,
                                                  size_t work_len) {
    return mogedorn_count(MOGEDORN_LENT(week), table, table_len, answer, work, work_len);
}

static inline mogedorn_number mogedorn_week_measure(const mogedorn_week *week, const uint32_t *table, size_t table_len, uint32_t answer, uint64_t k,
                                                    uint64_t *work, size_t work_len) {
    return mogedorn_measure(MOGEDORN_LENT(week), table, table_len, answer, k, work, work_len);
}

static inline mogedorn_timetable mogedorn_week_pick(const mogedorn_week *week, const uint32_t *table, size_t table_len, uint32_t answer, uint64_t k,
                                                    uint64_t *work, size_t work_len, uint16_t *page, size_t page_len) {
    return mogedorn_pick(MOGEDORN_LENT(week), table, table_len, answer, k, work, work_len, page, page_len);
}

static inline mogedorn_number mogedorn_week_place(const mogedorn_week *week, const uint32_t *table, size_t table_len, uint32_t answer, const uint16_t *list,
                                                  size_t list_len, uint64_t *work, size_t work_len) {
    return mogedorn_place(MOGEDORN_LENT(week), table, table_len, answer, list, list_len, work, work_len);
}

static inline mogedorn_timetable mogedorn_week_cheapest(const mogedorn_week *week, const uint16_t *costs, size_t costs_len, const uint32_t *table,
                                                        size_t table_len, uint32_t answer, uint64_t *work, size_t work_len, uint16_t *page,
                                                        size_t page_len) {
    return mogedorn_cheapest(MOGEDORN_LENT(week), costs, costs_len, table, table_len, answer, work, work_len, page, page_len);
}

static inline mogedorn_comparison mogedorn_week_closest(const mogedorn_week *week, const uint32_t *table, size_t table_len, uint32_t answer,
                                                        const uint16_t *list, size_t list_len, uint64_t *work, size_t work_len, uint16_t *page,
                                                        size_t page_len) {
    return mogedorn_closest(MOGEDORN_LENT(week), table, table_len, answer, list, list_len, work, work_len, page, page_len);
}

/* The week is not changed: shorten its list of packages afterwards. */
static inline mogedorn_number mogedorn_week_withdraw(const mogedorn_week *week, uint32_t *table, size_t table_len, const uint16_t *gone, size_t gone_len,
                                                     uint32_t *answers, size_t answers_len, uint64_t *work, size_t work_len) {
    return mogedorn_withdraw(MOGEDORN_LENT(week), table, table_len, gone, gone_len, answers, answers_len, work, work_len);
}

#undef MOGEDORN_LENT

#ifdef __cplusplus
}
#endif

#endif
