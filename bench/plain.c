/* Four of the library's questions in plain C, reading, fill, interface table and path: neighbour lists, a 64-bit open set, nothing allocated. It shares no code with the library. */
#include <string.h>

#include "plain.h"

enum { ROUTERS = 0x01, NAME = 0x02, LINK = 0x04, END = 0x7F };
enum { DELIVERED = 128, DISCARDED = 129, NO_ROUTE = 130, OWN_ROW = 131, LOST = 132 };

#define MOST_ROUTERS 64
#define MOST_LINKS 256
#define LINK_BYTES 7
#define NO_COST 4294967295u
#define NOWHERE 255 /* the previous hop of a packet that starts here */
#define BIT(k) ((uint64_t)1 << (k))

/* What an accepted table holds. */
struct table {
    unsigned routers;
    unsigned links;
    const uint8_t *first; /* the first link record */
};

struct neighbour {
    uint16_t weight;
    uint16_t router;
};

/* The neighbours of each router. */
struct web {
    uint8_t degree[MOST_ROUTERS];
    struct neighbour list[MOST_ROUTERS][MOST_ROUTERS - 1];
};

static uint64_t refusal(unsigned number, size_t place)
{
    return (uint64_t)number << 56 | place;
}

static unsigned two_bytes(const uint8_t *p)
{
    return (unsigned)p[0] << 8 | p[1];
}

static unsigned lowest(uint64_t set)
{
    return (unsigned)__builtin_ctzll(set);
}

/* 0 and what the table holds, or the refusal. */
static uint64_t judge(const uint8_t *bytes, size_t length, struct table *t)
{
    const uint8_t *p = bytes, *end = bytes + length;

    if (length < 3)
        return refusal(1, 0);
    if (p[0] != ROUTERS)
        return refusal(2, 0);
    if (two_bytes(p + 1) != 1)
        return refusal(3, 0);
    if (length < 4)
        return refusal(1, 0);
    unsigned n = p[3];
    if (n < 1 || n > MOST_ROUTERS)
        return refusal(4, 0);
    p += 4;

    for (int last = -1;;) {
        if (end - p < 3)
            return refusal(1, (size_t)(p - bytes));
        if (p[0] != NAME)
            break;
        unsigned size = two_bytes(p + 1);
        if (size < 2 || size > 17)
            return refusal(3, (size_t)(p - bytes));
        if ((size_t)(end - p) < 3 + size)
            return refusal(1, (size_t)(p - bytes));
        int router = p[3];
        if (router >= (int)n)
            return refusal(4, (size_t)(p - bytes));
        for (unsigned i = 1; i < size; i++)
            if (p[3 + i] < 0x21 || p[3 + i] > 0x7E)
                return refusal(4, (size_t)(p - bytes));
        if (router <= last)
            return refusal(5, (size_t)(p - bytes));
        last = router;
        p += 3 + size;
    }

    unsigned links = 0, last = 0; /* the pair 0, 0 is below every link */
    t->first = p;
    for (;;) {
        if (end - p < 3)
            return refusal(1, (size_t)(p - bytes));
        if (p[0] != LINK)
            break;
        if (two_bytes(p + 1) != 4)
            return refusal(3, (size_t)(p - bytes));
        if (end - p < LINK_BYTES)
            return refusal(1, (size_t)(p - bytes));
        if (p[3] >= p[4] || p[4] >= n || two_bytes(p + 5) == 0)
            return refusal(4, (size_t)(p - bytes));
        unsigned pair = two_bytes(p + 3);
        if (pair <= last)
            return refusal(5, (size_t)(p - bytes));
        if (links == MOST_LINKS)
            return refusal(6, (size_t)(p - bytes));
        last = pair;
        links++;
        p += LINK_BYTES;
    }

    if (p[0] != END)
        return refusal(2, (size_t)(p - bytes));
    if (two_bytes(p + 1) != 0)
        return refusal(3, (size_t)(p - bytes));
    p += 3;
    if (p != end)
        return refusal(7, (size_t)(p - bytes));
    t->routers = n;
    t->links = links;
    return 0;
}

static void lay_out(const struct table *t, struct web *web)
{
    const uint8_t *p = t->first;

    memset(web->degree, 0, sizeof web->degree);
    for (unsigned i = 0; i < t->links; i++, p += LINK_BYTES) {
        unsigned a = p[3], b = p[4];
        uint16_t weight = (uint16_t)two_bytes(p + 5);
        web->list[a][web->degree[a]++] = (struct neighbour){weight, (uint16_t)b};
        web->list[b][web->degree[b]++] = (struct neighbour){weight, (uint16_t)a};
    }
}

/* The router of a set with the least cost. A real cost is below 2^26, so it and the router's number make one 32-bit number. */
static unsigned nearest(const uint32_t *costs, uint64_t set)
{
    uint32_t least = 4294967295u;

    for (; set; set &= set - 1) {
        unsigned k = lowest(set);
        uint32_t key = costs[k] << 6 | k;
        if (key < least)
            least = key;
    }
    return least & 63;
}

/*
 * The costs between a router and all others, in Dijkstra's order, and a set for each of the others: if `first`, the first hops from the
 * router to it, else the hops before it, which are its next hops to the router. Written out twice by the compiler.
 */
static inline __attribute__((always_inline)) void
search(const struct web *web, unsigned n, unsigned router, uint32_t *costs, uint64_t *sets, int first)
{
    uint64_t open = BIT(router);

    for (unsigned i = 0; i < n; i++) {
        costs[i] = NO_COST;
        sets[i] = 0;
    }
    costs[router] = 0;
    while (open) {
        unsigned m = nearest(costs, open);
        const struct neighbour *q = web->list[m], *end = q + web->degree[m];
        open ^= BIT(m);
        for (; q < end; q++) {
            unsigned k = q->router;
            uint32_t cost = costs[m] + q->weight;
            uint64_t hops = !first ? BIT(m) : m == router ? BIT(k) : sets[m];
            if (cost < costs[k]) {
                costs[k] = cost;
                sets[k] = hops;
                open |= BIT(k);
            } else if (cost == costs[k]) {
                sets[k] |= hops;
            }
        }
    }
}

/* Costs and next-hop sets of every router for one destination. */
static void search_to(const struct web *web, unsigned n, unsigned destination, uint32_t *costs, uint64_t *sets)
{
    search(web, n, destination, costs, sets, 0);
}

/* The next-hop sets of one router for every destination. */
static void search_from(const struct web *web, unsigned n, unsigned router, uint64_t *sets)
{
    uint32_t costs[MOST_ROUTERS];

    search(web, n, router, costs, sets, 1);
}

static int linked(const struct web *web, unsigned a, unsigned b)
{
    for (unsigned i = 0; i < web->degree[a]; i++)
        if (web->list[a][i].router == b)
            return 1;
    return 0;
}

uint64_t plain_read(const uint8_t *table, size_t length)
{
    struct table t;
    uint64_t refused = judge(table, length, &t);

    return refused ? refused : (uint64_t)t.links << 8 | t.routers;
}

uint64_t plain_fill(const uint8_t *table, size_t length, uint64_t destination,
                    uint32_t *costs, size_t costs_length, uint64_t *sets, size_t sets_length)
{
    struct table t;
    struct web web;
    uint64_t refused = judge(table, length, &t);

    if (refused)
        return refused;
    if (destination >= t.routers)
        return refusal(9, 0);
    if (costs_length < t.routers || sets_length < t.routers)
        return refusal(10, 0);
    lay_out(&t, &web);
    search_to(&web, t.routers, (unsigned)destination, costs, sets);
    return t.routers;
}

uint64_t plain_interfaces(const uint8_t *table, size_t length, uint64_t router, uint8_t *out, size_t out_length)
{
    struct table t;
    struct web web;
    uint64_t sets[MOST_ROUTERS];
    uint64_t refused = judge(table, length, &t);

    if (refused)
        return refused;
    if (router >= t.routers)
        return refusal(9, 0);
    unsigned n = t.routers;
    if (out_length < (size_t)(n + 1) * n)
        return refusal(10, 0);
    lay_out(&t, &web);
    search_from(&web, n, (unsigned)router, sets);
    for (unsigned d = 0; d < n; d++)
        out[d] = d == router ? DELIVERED : sets[d] ? (uint8_t)lowest(sets[d]) : NO_ROUTE;
    for (unsigned j = 0; j < n; j++)
        memcpy(out + (j + 1) * n, out, n);
    memset(out + (router + 1) * n, OWN_ROW, n);
    for (unsigned d = 0; d < n; d++)
        for (uint64_t rest = sets[d]; rest; rest &= rest - 1)
            out[(lowest(rest) + 1) * n + d] = DISCARDED;
    return (uint64_t)(n + 1) * n;
}

/* Whether more than one link is in only one table or has another weight. */
static int too_different(const struct table *old, const struct table *new)
{
    const uint8_t *o = old->first, *n = new->first;
    const uint8_t *o_end = o + old->links * LINK_BYTES, *n_end = n + new->links * LINK_BYTES;
    unsigned differ = 0;

    while (o < o_end && n < n_end) {
        unsigned a = two_bytes(o + 3), b = two_bytes(n + 3);
        differ += a != b || two_bytes(o + 5) != two_bytes(n + 5);
        o += a <= b ? LINK_BYTES : 0;
        n += b <= a ? LINK_BYTES : 0;
    }
    differ += (unsigned)((o_end - o) + (n_end - n)) / LINK_BYTES;
    return differ > 1;
}

uint64_t plain_path(const uint8_t *old, size_t old_length, const uint8_t *new, size_t new_length,
                    uint64_t source, uint64_t destination, const uint8_t *views, size_t views_length,
                    uint8_t *trace, size_t trace_length)
{
    struct table o, t;
    struct web web;
    uint32_t costs[MOST_ROUTERS];
    uint64_t sets[2][MOST_ROUTERS];
    uint64_t refused = judge(old, old_length, &o);

    if (refused)
        return refused;
    refused = judge(new, new_length, &t);
    if (refused)
        return refused | BIT(48);
    unsigned n = t.routers;
    if (o.routers != n || too_different(&o, &t))
        return refusal(8, 0);
    if (source >= n || destination >= n)
        return refusal(9, 0);
    if (views_length < n - 1)
        return refusal(11, 0);
    for (unsigned i = 0; i < n - 1; i++)
        if (views[i] > 1)
            return refusal(11, 0);
    if (trace_length < n)
        return refusal(10, 0);

    lay_out(&o, &web);
    search_to(&web, n, (unsigned)destination, costs, sets[0]);
    lay_out(&t, &web);
    search_to(&web, n, (unsigned)destination, costs, sets[1]);

    unsigned at = (unsigned)source, previous = NOWHERE, hops = 0, outcome;
    for (;; hops++) {
        trace[hops] = (uint8_t)at;
        outcome = DELIVERED;
        if (at == destination)
            break;
        uint64_t set = sets[views[hops]][at];
        outcome = NO_ROUTE;
        if (!set)
            break;
        outcome = DISCARDED;
        if (previous != NOWHERE && set & BIT(previous))
            break;
        outcome = LOST; /* only the old view has links that the new table lacks */
        if (views[hops] == 0 && !linked(&web, at, lowest(set)))
            break;
        previous = at;
        at = lowest(set);
    }
    return (uint64_t)outcome << 16 | hops << 8 | at;
}
