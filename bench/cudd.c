/* The same search over CUDD's ZDDs, as Debian's libbrial carries them, in the plain order of the items: variable v is the package at place v in precedence.
   Nodes are made in CUDD's unique table directly, so that nothing but the tables differs. */
#include <stdint.h>
#include <stdio.h>
#include <stdlib.h>

#include <polybori/cudd/prefix_internal.h>
#include <polybori/cudd/cuddInt.h>

typedef struct {
    DdManager *dd;
    const uint64_t *sets; /* in precedence */
    uint64_t optional;
    const int32_t *first; /* by lowest compulsory item: the first to try, and then `after`; -1 is none */
    const int32_t *after;
    size_t places;
    uint64_t *keys;
    DdNode **values;
    uint64_t steps;
} search_t;

void *shim_new(int vars) {
    DdManager *dd = Cudd_Init(0, (unsigned)vars, CUDD_UNIQUE_SLOTS, CUDD_CACHE_SLOTS, 0);
    Cudd_AutodynDisableZdd(dd);
    return dd;
}

void shim_free(void *dd) { Cudd_Quit(dd); }

static DdNode *search(search_t *s, uint64_t items) {
    s->steps++;
    uint64_t compulsory = items & ~s->optional;
    if (compulsory == 0) return DD_ONE(s->dd);
    size_t at = items % s->places;
    if (s->keys[at] == items) return s->values[at];
    DdNode *answer = DD_ZERO(s->dd);
    for (int32_t p = s->first[__builtin_ctzll(compulsory)]; p >= 0; p = s->after[p]) {
        if (s->sets[p] & ~items) continue;
        DdNode *y = search(s, items & ~s->sets[p]);
        if (y == DD_ZERO(s->dd)) continue;
        answer = cuddUniqueInterZdd(s->dd, p, y, answer);
        cuddRef(answer);
    }
    s->keys[at] = items;
    s->values[at] = answer;
    return answer;
}

void *shim_cover(void *dd, const uint64_t *sets, uint64_t optional, const int32_t *first, const int32_t *after, uint64_t d, uint64_t *keys, void **values,
                 size_t places, uint64_t *steps) {
    search_t s = {dd, sets, optional, first, after, places, keys, (DdNode **)values, 0};
    for (size_t i = 0; i < places; i++) keys[i] = 0;
    DdNode *f = search(&s, d);
    Cudd_Ref(f);
    *steps = s.steps;
    return f;
}

/* either, both, only: 0 to 2 */
void *shim_pair(void *dd, int op, void *a, void *b) {
    DdNode *f = op == 0 ? Cudd_zddUnion(dd, a, b) : op == 1 ? Cudd_zddIntersect(dd, a, b) : Cudd_zddDiff(dd, a, b);
    Cudd_Ref(f);
    return f;
}

void *shim_join(void *dd, void *a, void *b) {
    DdNode *f = Cudd_zddUnateProduct(dd, a, b);
    Cudd_Ref(f);
    return f;
}

void *shim_without(void *dd, void *a, int v) {
    DdNode *f = Cudd_zddSubset0(dd, a, v);
    Cudd_Ref(f);
    return f;
}

/* the sets that hold v keep it: subset1 takes it away, change puts it back */
void *shim_with(void *dd, void *a, int v) {
    DdNode *g = Cudd_zddSubset1(dd, a, v);
    Cudd_Ref(g);
    DdNode *f = Cudd_zddChange(dd, g, v);
    Cudd_Ref(f);
    return f;
}

/* whether a is a node, and its children */
int shim_node(void *a, void **lo, void **hi) {
    if (cuddIsConstant((DdNode *)a)) return 0;
    *lo = cuddE((DdNode *)a), *hi = cuddT((DdNode *)a);
    return 1;
}

void *shim_zero(void *dd) { return DD_ZERO((DdManager *)dd); }
