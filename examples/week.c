/* A week at the pool: two schools and two slots, six packages, as document 01's example has them. Builds the bids file, reads it, covers all items, and
   asks what the desk would ask; joins the two schools planned apart; then once more with a slot that may go to the public, where it looks for the timetable
   closest to last term's, and once with the slots first. Last come the same bids as a file of version 2, which names the optional slot itself. `make example`
   builds and runs it. */
#include <stdint.h>
#include <stdio.h>
#include <stdlib.h>
#include <string.h>

#include "mogedorn.h"

enum { NODES = 1800, PLACES = 1801, PAGE = 64 };

enum { TABLE = 1 + 3 * NODES, WORK = 4 * PLACES };

static uint32_t table[TABLE], public_table[TABLE], ordered_table[TABLE]; /* all zeros: empty tables */
static uint64_t work[WORK];
static uint64_t packages[3 * 512]; /* three words a package */
static uint16_t costs[512];
static uint16_t page[PAGE];
static mogedorn_bids bids;

/* ---- the bids file */

static uint8_t *put(uint8_t *at, uint64_t value, int bytes) {
    for (int i = 0; i < bytes; i++) *at++ = (uint8_t)(value >> 8 * i);
    return at;
}

/* FNV-1a */
static uint32_t check(const uint8_t *b, size_t n) {
    uint32_t h = 2166136261u;
    for (size_t i = 0; i < n; i++) h = (h ^ b[i]) * 16777619u;
    return h;
}

static size_t make_file(uint8_t *file) {
    static const struct { uint8_t site, number; uint64_t slots; uint16_t cost; } bid[] = {
        {1, 4, 1, 3}, {1, 4, 2, 1}, {2, 4, 2, 2}, {2, 4, 1, 5}, {1, 4, 3, 2}, {2, 4, 0, 9},
    };
    const int n = sizeof bid / sizeof *bid;
    uint8_t *at = file;
    memcpy(at, "PSB", 3);
    at = put(at + 3, 1, 2); /* version */
    at = put(at, 2, 1);     /* schools */
    at = put(at, 2, 1);     /* slots */
    at = put(at, n, 2);
    at = put(put(at, 1, 1), 4, 1);
    at = put(put(at, 2, 1), 4, 1);
    for (int i = 0; i < n; i++) at = put(put(put(put(at, bid[i].site, 1), bid[i].number, 1), bid[i].slots, 8), bid[i].cost, 2);
    at = put(at, check(file, (size_t)(at - file)), 4);
    return (size_t)(at - file);
}

/* ---- the questions */

static void stop(const char *call, uint32_t refusal) {
    printf("%s: refused %u\n", call, (unsigned)refusal);
    exit(1);
}

static uint32_t answer(const char *call, mogedorn_report r) {
    if (r.refusal) stop(call, r.refusal);
    printf("%s: answer %u, %u steps, %u nodes made\n", call, (unsigned)r.answer, (unsigned)r.steps, (unsigned)r.made);
    return r.answer;
}

static void timetable(const char *what, mogedorn_timetable t) {
    if (t.refusal) stop(what, t.refusal);
    printf("%s:", what);
    for (uint64_t i = 0; i < t.packages; i++) printf(" %u", (unsigned)page[i]);
    printf("\n");
}

static void list(const mogedorn_week *week, const uint32_t *t, uint32_t a) {
    mogedorn_number c = mogedorn_week_count(week, t, TABLE, a, work, WORK);
    if (c.refusal) stop("count", c.refusal);
    printf("  %llu timetables\n", (unsigned long long)c.value);
    for (uint64_t k = 0; k < c.value; k++) timetable("  packages", mogedorn_week_pick(week, t, TABLE, a, k, work, WORK, page, PAGE));
}

/* What if package 1 is certain, and what if it falls out? */
static void with_and_without(const mogedorn_week *week, uint32_t all) {
    uint32_t with1 = answer("with 1", mogedorn_week_with(week, table, TABLE, all, 1, work, WORK));
    list(week, table, with1);
    uint32_t without1 = answer("without 1", mogedorn_week_without(week, table, TABLE, all, 1, work, WORK));
    list(week, table, without1);
    /* the two together are the week again: the same number, and no node; and all but the first are the second */
    uint32_t again = answer("either", mogedorn_week_either(week, table, TABLE, with1, without1, work, WORK));
    printf("the same set: %s\n", again == all ? "yes" : "no");
    answer("both", mogedorn_week_both(week, table, TABLE, with1, without1, work, WORK));
    answer("only", mogedorn_week_only(week, table, TABLE, all, with1, work, WORK));
}

/* The page that the last timetable needs, and a shorter one; a refusal has its number and changes nothing. */
static void pages(const mogedorn_week *week, uint32_t all) {
    mogedorn_number last = mogedorn_week_measure(week, table, TABLE, all, 2, work, WORK);
    if (last.refusal) stop("measure", last.refusal);
    printf("measure 2: %llu packages\n", (unsigned long long)last.value);
    mogedorn_timetable shorter = mogedorn_week_pick(week, table, TABLE, all, 2, work, WORK, page, last.value - 1);
    printf("pick 2 on a shorter page: refused %u\n", (unsigned)shorter.refusal);
    mogedorn_timetable past = mogedorn_week_pick(week, table, TABLE, all, 3, work, WORK, page, PAGE);
    printf("pick past the end: refused %u\n", (unsigned)past.refusal);
}

/* School 0 with slot 0 and school 1 with slot 1, planned apart, as one programme. The whole week has items in common with each. */
static void one_programme(const mogedorn_week *week, uint32_t all) {
    static const uint64_t first[3] = {1 << 0 | 1 << 2}, second[3] = {1 << 1 | 1 << 3};
    uint32_t a = answer("cover of school 0 and slot 0", mogedorn_week_cover(week, table, TABLE, first, 1000000, work, WORK));
    uint32_t b = answer("cover of school 1 and slot 1", mogedorn_week_cover(week, table, TABLE, second, 1000000, work, WORK));
    list(week, table, answer("join", mogedorn_week_join(week, table, TABLE, a, b, work, WORK)));
    printf("join with the whole week: refused %u\n", (unsigned)mogedorn_week_join(week, table, TABLE, a, all, work, WORK).refusal);
}

/* Last term's timetable was 4 5, and package 4 has fallen out: school 1 keeps its package, and school 0 gets another. */
static void little_change(const mogedorn_week *week, uint32_t all) {
    static const uint16_t last_term[] = {4, 5};
    uint32_t rest = answer("without 4", mogedorn_week_without(week, public_table, TABLE, all, 4, work, WORK));
    mogedorn_comparison nearest = mogedorn_week_closest(week, public_table, TABLE, rest, last_term, 2, work, WORK, page, PAGE);
    timetable("closest to 4 5", (mogedorn_timetable){.refusal = nearest.refusal, .packages = nearest.packages});
    printf("  difference %u\n", (unsigned)nearest.difference);
}

/* The same bids where slot 1 may go to the public: at most one package has it. Another optional set, so another table. */
static void open_swimming(const mogedorn_week *school_week, const uint64_t everything[3]) {
    mogedorn_week week = *school_week;
    uint32_t slot = bids.schools + 1; /* slot 1 as an item */
    week.optional[slot / 64] |= 1ull << slot % 64;
    uint32_t all = answer("cover with slot 1 optional", mogedorn_week_cover(&week, public_table, TABLE, everything, 1000000, work, WORK));
    list(&week, public_table, all); /* new is 0 5: neither school takes slot 1 */
    little_change(&week, all);
    /* a package must have a compulsory item, here its school */
    memcpy(week.optional, everything, sizeof week.optional);
    printf("all items optional: refused %u\n", (unsigned)mogedorn_week_check(&week, public_table, TABLE));
}

/* The same bids in an order of the items that has the slots before the schools. Another order, so another table: the old one is not sound under it. */
static void slots_first(const mogedorn_week *school_week, const uint64_t everything[3]) {
    mogedorn_week week = *school_week;
    static const uint8_t order[] = {2, 3, 0, 1};
    week.order = order, week.order_len = sizeof order;
    uint32_t all = answer("cover with the slots first", mogedorn_week_cover(&week, ordered_table, TABLE, everything, 1000000, work, WORK));
    list(&week, ordered_table, all); /* 3 1 is written by its slots: package 3 has slot 0, package 1 slot 1 */
    printf("the table of the other order: refused %u\n", (unsigned)mogedorn_week_check(&week, table, TABLE));
    /* each item just once */
    week.order_len = 3;
    printf("an order without item 1: refused %u\n", (unsigned)mogedorn_week_check(&week, ordered_table, TABLE));
}

/* The same bids as a file of version 2, and back; then as one in which slot 1 is optional. */
static void version2(const uint8_t *file, size_t length, const uint64_t everything[3]) {
    uint8_t file2[256], back[256];
    mogedorn_number up = mogedorn_convert_up(file, length, file2, sizeof file2);
    if (up.refusal) stop("up", up.refusal);
    mogedorn_number down = mogedorn_convert_down(file2, up.value, back, sizeof back);
    if (down.refusal) stop("down", down.refusal);
    int restored = down.value == length && memcmp(back, file, length) == 0;
    printf("version 1: %u bytes, version 2: %u, restored: %s\n", (unsigned)length, (unsigned)up.value, restored ? "yes" : "no");
    put(file2 + 9, 1 << 1, 8); /* the set of optional slots */
    put(file2 + up.value - 4, check(file2, up.value - 4), 4);
    bids = mogedorn_read_bids2(file2, up.value, packages, 3 * 512, costs, 512);
    if (bids.refusal) stop("read", bids.refusal);
    mogedorn_week week = {.m = bids.schools + bids.slots, .packages = packages, .packages_len = 3 * bids.packages};
    memcpy(week.optional, bids.optional, sizeof week.optional);
    /* packages, optional set and order are those of the table that open_swimming left: it has the answer */
    list(&week, public_table, answer("cover of version 2", mogedorn_week_cover(&week, public_table, TABLE, everything, 1000000, work, WORK)));
    printf("read as version 1: refused %u\n", (unsigned)mogedorn_read_bids(file2, up.value, packages, 3 * 512, costs, 512).refusal);
    printf("down with an optional slot: refused %u\n", (unsigned)mogedorn_convert_down(file2, up.value, back, sizeof back).refusal);
}

int main(void) {
    uint8_t file[256];
    size_t length = make_file(file);
    bids = mogedorn_read_bids(file, length, packages, 3 * 512, costs, 512);
    if (bids.refusal) stop("read", bids.refusal);
    printf("%u schools, %u slots, %u packages\n", (unsigned)bids.schools, (unsigned)bids.slots, (unsigned)bids.packages);
    /* the fields that are not named are zeros: no slot is optional, and the order is that of the items' numbers */
    const mogedorn_week week = {.m = bids.schools + bids.slots, .packages = packages, .packages_len = 3 * bids.packages};
    uint64_t everything[3];
    mogedorn_week_all(&week, everything);

    uint32_t all = answer("cover", mogedorn_week_cover(&week, table, TABLE, everything, 1000000, work, WORK));
    list(&week, table, all);
    mogedorn_timetable least = mogedorn_week_cheapest(&week, costs, bids.packages, table, TABLE, all, work, WORK, page, PAGE);
    timetable("cheapest", least);
    printf("  cost %u\n", (unsigned)least.cost);
    mogedorn_number k = mogedorn_week_place(&week, table, TABLE, all, page, least.packages, work, WORK);
    printf("  place %llu\n", (unsigned long long)k.value);
    with_and_without(&week, all);
    pages(&week, all);
    one_programme(&week, all);
    open_swimming(&week, everything);
    slots_first(&week, everything);
    version2(file, length, everything);
    return 0;
}

/*
Expected output:
2 schools, 2 slots, 6 packages
cover: answer 7, 9 steps, 6 nodes made
  3 timetables
  packages: 0 2
  packages: 1 3
  packages: 4 5
cheapest: 0 2
  cost 5
  place 0
with 1: answer 8, 0 steps, 1 nodes made
  1 timetables
  packages: 1 3
without 1: answer 9, 0 steps, 1 nodes made
  2 timetables
  packages: 0 2
  packages: 4 5
either: answer 7, 0 steps, 0 nodes made
the same set: yes
both: answer 0, 0 steps, 0 nodes made
only: answer 9, 0 steps, 0 nodes made
measure 2: 2 packages
pick 2 on a shorter page: refused 15
pick past the end: refused 12
cover of school 0 and slot 0: answer 10, 2 steps, 1 nodes made
cover of school 1 and slot 1: answer 6, 3 steps, 0 nodes made
join: answer 11, 0 steps, 1 nodes made
  1 timetables
  packages: 0 2
join with the whole week: refused 35
cover with slot 1 optional: answer 7, 9 steps, 6 nodes made
  4 timetables
  packages: 0 2
  packages: 0 5
  packages: 1 3
  packages: 4 5
without 4: answer 9, 0 steps, 2 nodes made
closest to 4 5: 0 5
  difference 2
all items optional: refused 30
cover with the slots first: answer 7, 7 steps, 6 nodes made
  3 timetables
  packages: 0 2
  packages: 3 1
  packages: 4 5
the table of the other order: refused 4
an order without item 1: refused 34
version 1: 89 bytes, version 2: 105, restored: yes
cover of version 2: answer 7, 9 steps, 0 nodes made
  4 timetables
  packages: 0 2
  packages: 0 5
  packages: 1 3
  packages: 4 5
read as version 1: refused 22
down with an optional slot: refused 33
*/
