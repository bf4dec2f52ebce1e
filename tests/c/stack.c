/* How much stack each entry takes: it runs on a stack of its own that was filled with a pattern, on inputs that make it go as deep as it can, and the
   lowest changed byte tells. `make stack` runs it; include/mogedorn.h states the result, rounded up. */
#include <stdio.h>
#include <stdlib.h>
#include <string.h>
#include <ucontext.h>

#include "mogedorn.h"

enum { STACK = 8 << 20, PATTERN = 0xA5, M = 192, N = 512, NODES = 65534 };

static unsigned char stack[STACK];
static ucontext_t main_context, call_context;
static void (*current)(void);

static uint64_t packages[3 * N], pairs[3 * 2 * M], everything[3], work[4 * NODES];
static const uint64_t optional[3]; /* none: the more items are compulsory, the deeper cover goes */
static uint8_t order[M];           /* reversed: in the plain order nothing is permuted */
static uint16_t costs[N], page[N], list[N];
static uint32_t table[1 + 3 * NODES], pairs_table[1 + 3 * NODES], apart_table[1 + 3 * NODES];
static uint32_t all, subsets, even, odd, answers[2];
static uint8_t file[13 + 2 * 64 + 12 * 64], file2[21 + 3 * 64 + 13 * 64], older[sizeof file], newer[sizeof file2];
static uint32_t refused;

static void run(void) { current(); }

static size_t measure(void (*call)(void)) {
    memset(stack, PATTERN, sizeof stack);
    getcontext(&call_context);
    call_context.uc_stack.ss_sp = stack;
    call_context.uc_stack.ss_size = sizeof stack;
    call_context.uc_link = &main_context;
    current = call;
    makecontext(&call_context, run, 0);
    swapcontext(&main_context, &call_context);
    size_t i = 0;
    while (i < sizeof stack && stack[i] == PATTERN) i++;
    return sizeof stack - i;
}

/* The number of a new node. */
static uint32_t node(uint32_t *t, uint32_t p, uint32_t lo, uint32_t hi) {
    uint32_t *w = t + 1 + 3 * t[0]++;
    w[0] = p, w[1] = lo, w[2] = hi;
    return t[0] + 1;
}

/* Where the item of package p stands in the order. The last package has the last item for itself. */
static int place(int p) { return p * (M - 1) / (N - 1); }

/* Every node of this table is on one path: the timetable of all 512 packages, and every set of packages. */
static void deep_table(void) {
    all = subsets = 1;
    for (uint32_t p = N; p-- > 0;) all = node(table, p, 0, all), subsets = node(table, p, subsets, subsets);
}

/* The timetable of all packages at even places of the order, and every set of those at odd places: their join goes down all packages but the last. */
static void deep_table_apart(void) {
    even = odd = 1;
    for (uint32_t p = N; p-- > 0;) {
        if (place((int)p) % 2 == 0)
            even = node(apart_table, p, 0, even);
        else
            odd = node(apart_table, p, odd, odd);
    }
}

static void do_check(void) { refused |= mogedorn_check(M, packages, 3 * N, optional, order, M, table, sizeof table / 4); }
static void do_all_items(void) { mogedorn_all_items(M, everything); }
/* search goes down one item a time: 192 items with two packages each */
static void do_cover(void) {
    refused |= mogedorn_cover(M, pairs, 3 * 2 * M, optional, order, M, pairs_table, sizeof pairs_table / 4, everything, 1000000, work, 4 * 503).refusal;
}
static void do_either(void) { refused |= mogedorn_either(M, packages, 3 * N, optional, order, M, table, sizeof table / 4, all, subsets, work, 2).refusal; }
static void do_both(void) { refused |= mogedorn_both(M, packages, 3 * N, optional, order, M, table, sizeof table / 4, all, subsets, work, 2).refusal; }
static void do_only(void) { refused |= mogedorn_only(M, packages, 3 * N, optional, order, M, table, sizeof table / 4, subsets, all, work, 2).refusal; }
static void do_with(void) { refused |= mogedorn_with(M, packages, 3 * N, optional, order, M, table, sizeof table / 4, all, N - 1, work, 2).refusal; }
static void do_without(void) { refused |= mogedorn_without(M, packages, 3 * N, optional, order, M, table, sizeof table / 4, all, N - 1, work, 2).refusal; }
static void do_join(void) {
    refused |= mogedorn_join(M, packages, 3 * N, optional, order, M, apart_table, sizeof apart_table / 4, even, odd, work, N + 2).refusal;
}
static void do_count(void) { refused |= mogedorn_count(M, packages, 3 * N, optional, order, M, table, sizeof table / 4, all, work, 4 * NODES).refusal; }
static void do_pick(void) {
    refused |= mogedorn_pick(M, packages, 3 * N, optional, order, M, table, sizeof table / 4, all, 0, work, 4 * NODES, page, N).refusal;
}
static void do_measure(void) { refused |= mogedorn_measure(M, packages, 3 * N, optional, order, M, table, sizeof table / 4, all, 0, work, 4 * NODES).refusal; }
static void do_place(void) {
    refused |= mogedorn_place(M, packages, 3 * N, optional, order, M, table, sizeof table / 4, all, list, N, work, 4 * NODES).refusal;
}
static void do_cheapest(void) {
    refused |= mogedorn_cheapest(M, packages, 3 * N, optional, order, M, costs, N, table, sizeof table / 4, all, work, 4 * NODES, page, N).refusal;
}
static void do_closest(void) {
    refused |= mogedorn_closest(M, packages, 3 * N, optional, order, M, table, sizeof table / 4, all, list, N, work, 4 * NODES, page, N).refusal;
}
static void do_withdraw(void) {
    answers[0] = all, answers[1] = subsets;
    refused |= mogedorn_withdraw(M, packages, 3 * N, optional, order, M, table, sizeof table / 4, list + 1, 1, answers, 2, work, 4 * NODES).refusal;
}
static void do_read_bids(void) { refused |= mogedorn_read_bids(file, sizeof file, packages, 3 * N, costs, N).refusal; }
static void do_read_bids2(void) { refused |= mogedorn_read_bids2(file2, sizeof file2, packages, 3 * N, costs, N).refusal; }
static void do_convert_up(void) { refused |= mogedorn_convert_up(file, sizeof file, newer, sizeof newer).refusal; }
static void do_convert_down(void) { refused |= mogedorn_convert_down(file2, sizeof file2, older, sizeof older).refusal; }

/* A file of 64 schools with one package each, in both versions. */
static void make_files(void) {
    memcpy(file, "PSB\1\0\100\0\100\0", 9);
    for (int j = 0; j < 64; j++) {
        file[9 + 2 * j] = 1, file[10 + 2 * j] = (uint8_t)j;
        file[9 + 128 + 12 * j] = 1, file[10 + 128 + 12 * j] = (uint8_t)j;
    }
    uint32_t h = 2166136261u;
    for (size_t i = 0; i + 4 < sizeof file; i++) h = (h ^ file[i]) * 16777619u;
    for (int i = 0; i < 4; i++) file[sizeof file - 4 + i] = (uint8_t)(h >> 8 * i);
    mogedorn_convert_up(file, sizeof file, file2, sizeof file2);
}

/* Package p becomes the single item. */
static void single(uint64_t *sets, int p, int item) { sets[3 * p + item / 64] = 1ull << (item % 64); }

int main(void) {
    for (int i = 0; i < M; i++) order[i] = (uint8_t)(M - 1 - i);
    for (int p = 0; p < N; p++) single(packages, p, order[place(p)]), list[p] = (uint16_t)p;
    for (int p = 0; p < 2 * M; p++) single(pairs, p, p / 2);
    mogedorn_all_items(M, everything);
    deep_table();
    deep_table_apart();
    make_files();
    static const struct { const char *name; void (*call)(void); } calls[] = {
        {"check", do_check}, {"all_items", do_all_items}, {"cover", do_cover}, {"either", do_either}, {"both", do_both}, {"only", do_only},
        {"with", do_with}, {"without", do_without}, {"join", do_join}, {"count", do_count}, {"measure", do_measure}, {"pick", do_pick},
        {"place", do_place}, {"cheapest", do_cheapest}, {"closest", do_closest}, {"withdraw", do_withdraw},
        {"read_bids", do_read_bids}, {"read_bids2", do_read_bids2}, {"convert_up", do_convert_up}, {"convert_down", do_convert_down},
    };
    for (size_t i = 0; i < sizeof calls / sizeof *calls; i++) {
        refused = 0;
        size_t bytes = measure(calls[i].call);
        printf("%-12s %8zu bytes%s\n", calls[i].name, bytes, refused ? " (refused)" : "");
    }
    return 0;
}
