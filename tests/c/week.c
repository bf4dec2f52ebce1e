/* The inline functions of the header beside their entries: they give the same, table and page included. Each side has a table and a page of its own. The text
   is C99 and C++11 alike; `make test-c` builds and runs it as both. */
#include <stdio.h>
#include <string.h>

#include "mogedorn.h"

enum { TABLE = 1 + 3 * 20, WORK = 4 * 64 + 3, PAGE = 5, ANSWERS = 4 };

/* {0}, {0, 2}, {1, 2}, {1}, item 2 optional; the word behind them is no package */
static const uint64_t packages[13] = {1, 0, 0, 5, 0, 0, 6, 0, 0, 2, 0, 0, 9};
static const uint16_t costs[4] = {7, 1, 1, 3};
static const uint8_t plain[3] = {0, 1, 2}, reversed[3] = {2, 1, 0};
static mogedorn_week week;
static const uint8_t *order; /* what the entries are lent: never null */

static uint32_t table[TABLE], entry_table[TABLE];
static uint64_t work[WORK];
static uint16_t page[PAGE], entry_page[PAGE];
static int failed;

/* What an entry takes for the week. */
#define LENT 3, packages, 13, week.optional, order, 3

static void expect(const char *what, int holds) {
    if (!holds) printf("%s: not as expected\n", what);
    failed |= !holds;
}

static uint32_t report(const char *what, mogedorn_report x, mogedorn_report entry) {
    expect(what, x.refusal == entry.refusal && x.answer == entry.answer && x.steps == entry.steps && x.made == entry.made);
    expect(what, memcmp(table, entry_table, sizeof table) == 0);
    return x.answer;
}

static void number(const char *what, mogedorn_number x, mogedorn_number entry, uint64_t value) {
    expect(what, x.refusal == 0 && entry.refusal == 0 && x.value == value && entry.value == value);
}

static void timetable(const char *what, mogedorn_timetable x, mogedorn_timetable entry, uint16_t first, uint16_t second) {
    expect(what, x.refusal == entry.refusal && x.cost == entry.cost && x.packages == entry.packages);
    expect(what, memcmp(page, entry_page, sizeof page) == 0);
    expect(what, x.refusal == 0 && x.packages == 2 && page[0] == first && page[1] == second);
}

static uint32_t cover(uint32_t made) {
    uint64_t d[3], all[3];
    mogedorn_week_all(&week, d);
    mogedorn_all_items(3, all);
    expect("all", memcmp(d, all, sizeof d) == 0 && d[0] == 7);
    mogedorn_report spent = mogedorn_week_cover(&week, table, TABLE, d, 5, work, WORK);
    expect("cover", spent.refusal == MOGEDORN_SPENT);
    mogedorn_report x = mogedorn_week_cover(&week, table, TABLE, d, 6, work, WORK);
    expect("cover", x.refusal == 0 && x.steps == 6 && x.made == made);
    return report("cover", x, mogedorn_cover(LENT, entry_table, TABLE, d, 6, work, WORK));
}

static void operations(uint32_t all) {
    uint32_t a = report("with", mogedorn_week_with(&week, table, TABLE, all, 0, work, WORK), mogedorn_with(LENT, entry_table, TABLE, all, 0, work, WORK));
    uint32_t b =
        report("without", mogedorn_week_without(&week, table, TABLE, all, 2, work, WORK), mogedorn_without(LENT, entry_table, TABLE, all, 2, work, WORK));
    report("either", mogedorn_week_either(&week, table, TABLE, a, b, work, WORK), mogedorn_either(LENT, entry_table, TABLE, a, b, work, WORK));
    report("both", mogedorn_week_both(&week, table, TABLE, a, b, work, WORK), mogedorn_both(LENT, entry_table, TABLE, a, b, work, WORK));
    report("only", mogedorn_week_only(&week, table, TABLE, a, b, work, WORK), mogedorn_only(LENT, entry_table, TABLE, a, b, work, WORK));
}

static uint32_t part(uint64_t items) {
    const uint64_t d[3] = {items, 0, 0};
    return report("cover of a part", mogedorn_week_cover(&week, table, TABLE, d, 6, work, WORK), mogedorn_cover(LENT, entry_table, TABLE, d, 6, work, WORK));
}

static mogedorn_report join(uint32_t a, uint32_t b, size_t words) {
    mogedorn_report x = mogedorn_week_join(&week, table, TABLE, a, b, work, words);
    report("join", x, mogedorn_join(LENT, entry_table, TABLE, a, b, work, words));
    return x;
}

/* {0, 2} and {1} are covered by packages 0 or 1 and by 3: joined they are the timetables without package 2. {1, 2} shares the optional item with {0, 2}. */
static void joins(uint32_t all) {
    uint32_t a = part(5), b = part(2), c = part(6), most = a < b ? b : a;
    uint32_t without = mogedorn_week_without(&week, table, TABLE, all, 2, work, WORK).answer;
    mogedorn_report x = join(a, b, most + 1);
    expect("join", x.refusal == 0 && x.answer == without && x.steps == 0 && x.made == 0);
    expect("join", join(b, a, most + 1).answer == without);
    expect("join of few words", join(a, b, most).refusal == MOGEDORN_SHORT_WORK && join(1, 1, 1).refusal == MOGEDORN_SHORT_WORK);
    expect("join with 0 and 1", join(a, 1, a + 1).answer == a && join(1, a, a + 1).answer == a && join(a, 0, a + 1).answer == 0 && join(1, 1, 2).answer == 1);
    expect("join of answers that share an item", join(a, c, WORK).refusal == MOGEDORN_OVERLAP && join(c, a, 0).refusal == MOGEDORN_OVERLAP);
    expect("join with itself", join(a, a, 0).refusal == MOGEDORN_OVERLAP);
    expect("join of an unknown answer", join(a, table[0] + 2, 0).refusal == MOGEDORN_UNKNOWN_ANSWER);
}

/* Closest on a page that both sides have alike; a refusal leaves it as it was. */
static mogedorn_comparison closest(uint32_t a, const uint16_t *list, size_t list_len, size_t words, size_t page_len) {
    uint16_t before[PAGE];
    memcpy(entry_page, page, sizeof page);
    memcpy(before, page, sizeof page);
    mogedorn_comparison x = mogedorn_week_closest(&week, table, TABLE, a, list, list_len, work, words, page, page_len);
    mogedorn_comparison entry = mogedorn_closest(LENT, table, TABLE, a, list, list_len, work, words, entry_page, page_len);
    expect("closest", x.refusal == entry.refusal && x.difference == entry.difference && x.packages == entry.packages);
    expect("closest", memcmp(page, entry_page, sizeof page) == 0);
    if (x.refusal) expect("closest refused", x.difference == 0 && x.packages == 0 && memcmp(page, before, sizeof page) == 0);
    return x;
}

/* A timetable is closest to itself; to no package they are all as close, and the first is given. A list is turned round, repeats, or has a package of N. */
static void closest_ones(uint32_t all, const uint16_t second[2]) {
    const uint16_t turned[2] = {second[1], second[0]}, twice[2] = {second[0], second[0]}, unknown[1] = {4};
    mogedorn_comparison x = closest(all, second, 2, all + 1, 2);
    expect("closest to itself", x.refusal == 0 && x.difference == 0 && x.packages == 2 && page[0] == second[0] && page[1] == second[1]);
    mogedorn_week_pick(&week, table, TABLE, all, 0, work, WORK, page, PAGE);
    const uint16_t first[2] = {page[0], page[1]};
    page[0] = page[1] = 9;
    x = closest(all, second, 0, WORK, PAGE);
    expect("closest to nothing", x.refusal == 0 && x.difference == 2 && x.packages == 2 && page[0] == first[0] && page[1] == first[1]);
    x = closest(1, second, 1, 2, 0);
    expect("closest of 1", x.refusal == 0 && x.difference == 1 && x.packages == 0);
    expect("closest of an unknown answer", closest(table[0] + 2, turned, 2, 0, 0).refusal == MOGEDORN_UNKNOWN_ANSWER);
    expect("closest to a list turned round", closest(all, turned, 2, 0, 0).refusal == MOGEDORN_UNKNOWN_PACKAGE);
    expect("closest to a list that repeats", closest(all, twice, 2, 0, 0).refusal == MOGEDORN_UNKNOWN_PACKAGE);
    expect("closest to an unknown package", closest(0, unknown, 1, 0, 0).refusal == MOGEDORN_UNKNOWN_PACKAGE);
    expect("closest with few words", closest(all, second, 2, all, 0).refusal == MOGEDORN_SHORT_WORK && closest(0, second, 2, 0, 0).refusal == MOGEDORN_SHORT_WORK);
    expect("closest of nothing", closest(0, second, 2, 1, 0).refusal == MOGEDORN_NOTHING);
    expect("closest on a short page", closest(all, second, 2, all + 1, 1).refusal == MOGEDORN_SHORT_PAGE);
}

/* The second timetable and the cheapest. */
static void questions(uint32_t all, const uint16_t second[2], const uint16_t least[2]) {
    expect("check", mogedorn_week_check(&week, table, TABLE) == 0 && mogedorn_check(LENT, table, TABLE) == 0);
    number("count", mogedorn_week_count(&week, table, TABLE, all, work, WORK), mogedorn_count(LENT, table, TABLE, all, work, WORK), 3);
    number("measure", mogedorn_week_measure(&week, table, TABLE, all, 1, work, WORK), mogedorn_measure(LENT, table, TABLE, all, 1, work, WORK), 2);
    number("place", mogedorn_week_place(&week, table, TABLE, all, second, 2, work, WORK), mogedorn_place(LENT, table, TABLE, all, second, 2, work, WORK), 1);
    timetable("pick", mogedorn_week_pick(&week, table, TABLE, all, 1, work, WORK, page, PAGE),
              mogedorn_pick(LENT, table, TABLE, all, 1, work, WORK, entry_page, PAGE), second[0], second[1]);
    timetable("cheapest", mogedorn_week_cheapest(&week, costs, 4, table, TABLE, all, work, WORK, page, PAGE),
              mogedorn_cheapest(LENT, costs, 4, table, TABLE, all, work, WORK, entry_page, PAGE), least[0], least[1]);
    closest_ones(all, second);
}

/* Withdraw on tables that both sides have alike, with lists of their own; a refusal leaves both as they were. */
static mogedorn_number withdraw(const uint16_t *gone, size_t gone_len, uint32_t *answers, size_t words) {
    uint32_t before[TABLE], listed[ANSWERS], entry_answers[ANSWERS];
    memcpy(entry_table, table, sizeof table);
    memcpy(before, table, sizeof table);
    memcpy(listed, answers, sizeof listed);
    memcpy(entry_answers, answers, sizeof listed);
    mogedorn_number x = mogedorn_week_withdraw(&week, table, TABLE, gone, gone_len, answers, ANSWERS, work, words);
    mogedorn_number entry = mogedorn_withdraw(LENT, entry_table, TABLE, gone, gone_len, entry_answers, ANSWERS, work, words);
    expect("withdraw", x.refusal == entry.refusal && x.value == entry.value);
    expect("withdraw", memcmp(table, entry_table, sizeof table) == 0 && memcmp(answers, entry_answers, sizeof listed) == 0);
    if (x.refusal)
        expect("withdraw refused", x.value == 0 && memcmp(table, before, sizeof table) == 0 && memcmp(answers, listed, sizeof listed) == 0);
    else
        expect("withdraw", x.value == table[0]);
    return x;
}

/* How many timetables the answer has, with the packages from the given one on. */
static uint64_t count_from(uint32_t answer, int first) {
    mogedorn_week rest = week;
    rest.packages += 3 * first, rest.packages_len -= 3 * first;
    mogedorn_number n = mogedorn_week_count(&rest, table, TABLE, answer, work, WORK);
    expect("count after withdraw", n.refusal == 0);
    return n.value;
}

/* Nothing is withdrawn and one answer listed, for room; then package 0, without which one timetable is left, 1 3, now 0 2: what is left of all and of those
   without 2 is the same. Each refusal in its place. */
static void withdrawals(uint32_t all, uint32_t nodes) {
    static const uint16_t none[1] = {9}, zero[1] = {0}, falling[2] = {1, 0}, twice[2] = {1, 1}, unknown[1] = {4};
    uint32_t without = mogedorn_week_without(&week, table, TABLE, all, 2, work, WORK).answer;
    uint32_t known[ANSWERS] = {all, 0, without, 1}, strange[ANSWERS] = {all, 0, 1, table[0] + 2};
    expect("withdraw with an unknown answer", withdraw(falling, 2, strange, 0).refusal == MOGEDORN_UNKNOWN_ANSWER);
    expect("withdraw of a falling list", withdraw(falling, 2, known, 0).refusal == MOGEDORN_NOT_RISING);
    expect("withdraw of a list that repeats", withdraw(twice, 2, known, WORK).refusal == MOGEDORN_NOT_RISING);
    expect("withdraw of an unknown package", withdraw(unknown, 1, known, 0).refusal == MOGEDORN_NOT_RISING);
    expect("withdraw with few words", withdraw(zero, 1, known, table[0] + 1).refusal == MOGEDORN_SHORT_WORK);
    uint32_t only[ANSWERS] = {all, all, all, all};
    mogedorn_number x = withdraw(none, 0, only, table[0] + 2);
    expect("withdraw of nothing", x.refusal == 0 && x.value == nodes && only[0] == nodes + 1 && only[3] == only[0] && count_from(only[0], 0) == 3);
    without = mogedorn_week_without(&week, table, TABLE, only[0], 2, work, WORK).answer;
    uint32_t used[ANSWERS] = {only[0], 0, without, 1};
    x = withdraw(zero, 1, used, table[0] + 2);
    expect("withdraw", x.refusal == 0 && x.value == 2 && used[0] == 3 && used[1] == 0 && used[2] == 3 && used[3] == 1 && count_from(3, 1) == 1);
}

/* Every call, on empty tables. The week has the order that the entries are lent, or null for the plain one. */
static void every_call(const uint8_t *week_order, size_t week_order_len, uint32_t made, const uint16_t second[2], const uint16_t least[2]) {
    week.order = week_order, week.order_len = week_order_len;
    memset(table, 0, sizeof table);
    memset(entry_table, 0, sizeof entry_table);
    uint32_t all = cover(made);
    operations(all);
    joins(all);
    questions(all, second, least);
    withdrawals(all, made);
}

/* In the plain order the listing is 0 2, 0 3, 1 3, and reversed it is 2 0, 3 0, 3 1; each time the last is the cheapest. */
static void orders(void) {
    static const uint16_t second[2] = {0, 3}, last[2] = {1, 3}, second_reversed[2] = {3, 0}, last_reversed[2] = {3, 1};
    order = plain;
    every_call(NULL, 0, 4, second, last);
    every_call(NULL, 99, 4, second, last);
    every_call(plain, 3, 4, second, last);
    order = reversed;
    every_call(reversed, 3, 5, second_reversed, last_reversed);
    /* a table made under another order */
    memset(table, 0, sizeof table);
    memset(entry_table, 0, sizeof entry_table);
    cover(5);
    week.order = NULL;
    expect("check under another order", mogedorn_week_check(&week, table, TABLE) == MOGEDORN_SPOILT);
}

/* An order of the week and of its entry that is not each item just once. */
static void disordered(const uint8_t *bad, size_t bad_len) {
    uint64_t d[3];
    week.order = bad, week.order_len = bad_len;
    mogedorn_week_all(&week, d);
    expect("check of a bad order", mogedorn_week_check(&week, table, TABLE) == MOGEDORN_DISORDERED);
    expect("check of a bad order", mogedorn_check(3, packages, 13, week.optional, bad, bad_len, table, TABLE) == MOGEDORN_DISORDERED);
    mogedorn_report x = mogedorn_week_cover(&week, table, TABLE, d, 6, work, WORK);
    expect("cover in a bad order", x.refusal == MOGEDORN_DISORDERED);
    report("cover in a bad order", x, mogedorn_cover(3, packages, 13, week.optional, bad, bad_len, entry_table, TABLE, d, 6, work, WORK));
    /* before the length of the cost list */
    expect("cheapest in a bad order", mogedorn_week_cheapest(&week, costs, 3, table, TABLE, 1, work, WORK, page, PAGE).refusal == MOGEDORN_DISORDERED);
    expect("closest in a bad order", mogedorn_week_closest(&week, table, TABLE, 1, page, 0, work, WORK, entry_page, PAGE).refusal == MOGEDORN_DISORDERED);
}

static void bad_orders(void) {
    static const uint8_t twice[3] = {0, 1, 1}, above[3] = {3, 1, 0}, longer[4] = {0, 1, 2, 2};
    disordered(twice, 3);
    disordered(above, 3);
    disordered(longer, 4);
    disordered(reversed, 2);
    disordered(plain, 0);
}

/* A null order around the greatest M: the list that stands for it has 192 items, and of more M is refused before it is read. */
static void greatest_m(void) {
    mogedorn_week wide;
    uint32_t empty[1] = {0};
    memset(&wide, 0, sizeof wide);
    for (wide.m = 190; wide.m < 200; wide.m++)
        expect("check of many items", mogedorn_week_check(&wide, empty, 1) == (wide.m > 192 ? (uint32_t)MOGEDORN_OVERSIZE : 0));
    wide.m = 0xffffffff;
    expect("check of most items", mogedorn_week_check(&wide, empty, 1) == MOGEDORN_OVERSIZE);
}

/* A week of zeros has no item and no package, and its pointers to packages and order are null: the empty timetable covers the empty set, in one step. */
static void zeros(void) {
    mogedorn_week none;
    uint32_t empty[1] = {0};
    uint64_t d[3];
    memset(&none, 0, sizeof none);
    mogedorn_week_all(&none, d);
    expect("check of zeros", mogedorn_week_check(&none, empty, 1) == 0);
    mogedorn_report x = mogedorn_week_cover(&none, empty, 1, d, 1, work, 4);
    expect("cover of zeros", x.refusal == 0 && x.answer == 1 && x.steps == 1 && x.made == 0);
    none.order = plain, none.order_len = 1;
    expect("check of an order for no item", mogedorn_week_check(&none, empty, 1) == MOGEDORN_DISORDERED);
    none.order_len = 0;
    expect("check of an empty order", mogedorn_week_check(&none, empty, 1) == 0);
    none.optional[2] = 1;
    expect("check of an optional item of M or above", mogedorn_week_check(&none, empty, 1) == MOGEDORN_STRAY_OPTIONAL);
}

int main(void) {
    week.m = 3, week.packages = packages, week.packages_len = 13, week.optional[0] = 4;
    orders();
    bad_orders();
    greatest_m();
    zeros();
    week.optional[0] = 6;
    expect("check of a package without a compulsory item", mogedorn_week_check(&week, table, TABLE) == MOGEDORN_ALL_OPTIONAL);
    if (!failed) printf("week.c: the inline functions and their entries agree\n");
    return failed;
}
