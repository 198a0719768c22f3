/*
 * The benchmark: the library beside plain C of the same questions.
 *
 *   harness check                       both sides answer alike, to the last byte lent; exit status 1 and a report if not
 *   harness list                        the inputs: name, links, neighbours of the router asked for, hops of the path, in words
 *   harness time ROUNDS                 nanoseconds of each job on each input, the least of all rounds, sides in turn
 *   harness run SIDE JOB INPUT TIMES    the job so many times, for a counter of instructions
 */
#include <stdio.h>
#include <stdlib.h>
#include <string.h>
#include <time.h>

#include "plain.h"
#include "tracer.h"

#define N 64    /* routers of every input that is timed */
#define SPARE 8 /* places behind each output, which must stay as they were */

/* Moves the code of this and all later files by so many bytes. */
#ifdef LAYOUT
#define WORDS(x) #x
#define SKIP(bytes) ".text\n\t.skip " WORDS(bytes) "\n"
__asm__(SKIP(LAYOUT));
#endif

/* ---- the two sides */

struct side {
    const char *name;
    uint64_t (*read)(const uint8_t *, size_t);
    uint64_t (*fill)(const uint8_t *, size_t, uint64_t, uint32_t *, size_t, uint64_t *, size_t);
    uint64_t (*interfaces)(const uint8_t *, size_t, uint64_t, uint8_t *, size_t);
    uint64_t (*path)(const uint8_t *, size_t, const uint8_t *, size_t, uint64_t, uint64_t, const uint8_t *, size_t, uint8_t *, size_t);
};

static const struct side sides[2] = {
    {"plain", plain_read, plain_fill, plain_interfaces, plain_path},
    {"library", tracer_read, tracer_fill, tracer_interfaces, tracer_path},
};

/* ---- numbers by chance, the same in every run */

static uint64_t state;

static unsigned chance(unsigned below)
{
    state ^= state << 13;
    state ^= state >> 7;
    state ^= state << 17;
    return (unsigned)(state >> 32) % below;
}

/* ---- tables */

struct bytes {
    size_t length;
    uint8_t at[TRACER_MOST_TABLE_BYTES + 64]; /* a damaged table may be longer than a good one */
};

/* A table before it is bytes: weights above the diagonal (0: no link), lengths of names (0: none). */
struct draft {
    unsigned routers;
    uint16_t weight[N][N];
    uint8_t name[N];
};

static void link_draft(struct draft *d, unsigned a, unsigned b, unsigned weight)
{
    d->weight[a < b ? a : b][a < b ? b : a] = (uint16_t)weight;
}

/* So many further links between routers taken by chance. */
static void link_by_chance(struct draft *d, unsigned links, unsigned heaviest)
{
    while (links > 0) {
        unsigned a = chance(d->routers), b = chance(d->routers);
        if (a < b && d->weight[a][b] == 0) {
            link_draft(d, a, b, 1 + chance(heaviest));
            links--;
        }
    }
}

static void put(struct bytes *t, unsigned byte)
{
    t->at[t->length++] = (uint8_t)byte;
}

static void put_header(struct bytes *t, unsigned tag, unsigned size)
{
    put(t, tag);
    put(t, size >> 8);
    put(t, size);
}

static void write_table(const struct draft *d, struct bytes *t)
{
    t->length = 0;
    put_header(t, 0x01, 1);
    put(t, d->routers);
    for (unsigned i = 0; i < d->routers; i++) {
        if (d->name[i] == 0)
            continue;
        put_header(t, 0x02, 1 + d->name[i]);
        put(t, i);
        for (unsigned k = 0; k < d->name[i]; k++)
            put(t, 0x21 + (7 * i + 11 * k) % 94);
    }
    for (unsigned a = 0; a < d->routers; a++)
        for (unsigned b = a + 1; b < d->routers; b++) {
            if (d->weight[a][b] == 0)
                continue;
            put_header(t, 0x04, 4);
            put(t, a);
            put(t, b);
            put(t, d->weight[a][b] >> 8);
            put(t, d->weight[a][b]);
        }
    put_header(t, 0x7F, 0);
}

/* ---- the inputs that are timed */

enum input_name { TIES, RANDOM, ORDER, LONGEST, LINE, TURNED, RING, GRID, INPUTS };
static const char *const input_names[INPUTS] = {"ties", "random", "order", "longest", "line", "turned", "ring", "grid"};
static const char *const input_words[INPUTS] = {
    "256 links, weights 1 to 3", "256 links, weights 1 to 65535", "256 links, bad order", "256 links, 64 names",
    "line", "line, bad order", "ring", "8 × 8 grid",
};

struct input {
    struct bytes old, new; /* new: the weight of one link is changed */
    unsigned links;
    unsigned destination;  /* of the fill and the path */
    unsigned source;       /* the router with the most hops to the destination */
    unsigned router;       /* the one with the most neighbours */
    unsigned neighbours;
    uint8_t views[N - 1];  /* old and new in turn */
};

/* The router at a place of a line that starts at the destination: along it the pairs of the links fall from the first to the last, so that
 * relaxing in the order of the link records carries a cost one link further in each round. */
static unsigned turned(unsigned place)
{
    return (N - 1 - place) ^ 1;
}

static void draw(enum input_name name, struct draft *d)
{
    memset(d, 0, sizeof *d);
    d->routers = N;
    state = 88172645463325252u;
    switch (name) {
    case LONGEST:
        memset(d->name, 16, sizeof d->name);
        /* fall through */
    case TIES:
        link_by_chance(d, 256, 3);
        break;
    case RANDOM:
        link_by_chance(d, 256, 65535);
        break;
    case ORDER: { /* a turned line with longer links, each dearer than the line between its ends: many costs fall more than once */
        unsigned links = 0;
        for (unsigned step = 1; links < 256; step++)
            for (unsigned i = 0; i + step < N && links < 256; i++, links++)
                link_draft(d, turned(i), turned(i + step), 60 * step * step);
        break;
    }
    case LINE:
        for (unsigned i = 0; i + 1 < N; i++)
            link_draft(d, i, i + 1, 1);
        break;
    case TURNED:
        for (unsigned i = 0; i + 1 < N; i++)
            link_draft(d, turned(i), turned(i + 1), 1);
        break;
    case RING:
        for (unsigned i = 0; i < N; i++)
            link_draft(d, i, (i + 1) % N, 1);
        break;
    case GRID:
        for (unsigned i = 0; i < N; i++) {
            if (i % 8 < 7)
                link_draft(d, i, i + 1, 1);
            if (i + 8 < N)
                link_draft(d, i, i + 8, 1);
        }
        break;
    default:
        break;
    }
}

static void make_input(enum input_name name, struct input *in)
{
    static struct draft d;
    unsigned degree[N] = {0}, hops[N];
    uint32_t costs[N];
    uint64_t sets[N];
    unsigned changed_a = 0, changed_b = 0, most = 0;

    draw(name, &d);
    write_table(&d, &in->old);
    in->links = (unsigned)(plain_read(in->old.at, in->old.length) >> 8);

    unsigned seen = 0;
    for (unsigned a = 0; a < N; a++)
        for (unsigned b = a + 1; b < N; b++)
            if (d.weight[a][b]) {
                degree[a]++;
                degree[b]++;
                if (seen++ == in->links / 2) {
                    changed_a = a;
                    changed_b = b;
                }
            }
    in->router = 0;
    for (unsigned i = 1; i < N; i++)
        if (degree[i] > degree[in->router])
            in->router = i;
    in->neighbours = degree[in->router];

    in->destination = name == ORDER || name == TURNED ? turned(0) : 0;
    plain_fill(in->old.at, in->old.length, in->destination, costs, N, sets, N);
    in->source = in->destination;
    for (unsigned i = 0; i < N; i++) {
        hops[i] = 0;
        for (unsigned at = i; sets[at]; at = (unsigned)__builtin_ctzll(sets[at]))
            hops[i]++;
        if (hops[i] > most) {
            most = hops[i];
            in->source = i;
        }
    }

    d.weight[changed_a][changed_b]++;
    write_table(&d, &in->new);
    for (unsigned i = 0; i < N - 1; i++)
        in->views[i] = i % 2;
}

/* ---- the jobs */

enum job { JUDGE, FILL, PAIRS, PATH, INTERFACES, JOBS };
static const char *const job_names[JOBS] = {"judge", "fill", "pairs", "path", "interfaces"};

static uint64_t do_job(const struct side *side, enum job job, const struct input *in)
{
    static uint32_t costs[N];
    static uint64_t sets[N];
    static uint8_t trace[N], out[(N + 1) * N];
    uint64_t answers = 0;

    switch (job) {
    case JUDGE:
        return side->read(in->old.at, in->old.length);
    case FILL:
        return side->fill(in->old.at, in->old.length, in->destination, costs, N, sets, N);
    case PAIRS:
        for (unsigned d = 0; d < N; d++)
            answers += side->fill(in->old.at, in->old.length, d, costs, N, sets, N);
        return answers;
    case PATH:
        return side->path(in->old.at, in->old.length, in->new.at, in->new.length, in->source, in->destination,
                          in->views, N - 1, trace, N);
    case INTERFACES:
        return side->interfaces(in->old.at, in->old.length, in->router, out, sizeof out);
    default:
        return 0;
    }
}

/* ---- checking */

/* A question: the tables and numbers, and how long the lent parts are. */
struct question {
    const struct bytes *old, *new;
    uint64_t source, destination, router;
    const uint8_t *views;
    size_t views_length, costs_length, sets_length, trace_length, out_length;
};

/* What one side answers and leaves in the lent parts. */
struct reply {
    uint64_t read, fill, interfaces, path;
    uint32_t costs[N + SPARE];
    uint64_t sets[N + SPARE];
    uint8_t trace[N + SPARE];
    uint8_t out[(N + 1) * N + SPARE];
};

static struct reply blank, replies[2];
static unsigned asked, seen[12], ended[TRACER_LOST + 1]; /* questions; path answers by refusal, 0 for none, and by outcome */

static void show_table(const char *what, const struct bytes *t)
{
    printf("%s:", what);
    for (size_t i = 0; i < t->length; i++)
        printf(" %02x", t->at[i]);
    printf("\n");
}

/* Tells what failed, and the question, if it was one, with both answers. */
static void fail(const char *what, const struct question *q)
{
    printf("FAILED: %s\n", what);
    if (!q)
        exit(1);
    for (int s = 0; s < 2; s++)
        printf("%s: read %016llx fill %016llx interfaces %016llx path %016llx\n", sides[s].name, (unsigned long long)replies[s].read,
               (unsigned long long)replies[s].fill, (unsigned long long)replies[s].interfaces, (unsigned long long)replies[s].path);
    printf("source %llu destination %llu router %llu; lengths: views %zu costs %zu sets %zu trace %zu out %zu\n",
           (unsigned long long)q->source, (unsigned long long)q->destination, (unsigned long long)q->router,
           q->views_length, q->costs_length, q->sets_length, q->trace_length, q->out_length);
    printf("views:");
    for (size_t i = 0; i < q->views_length; i++)
        printf(" %d", q->views[i]);
    printf("\n");
    show_table("old", q->old);
    show_table("new", q->new);
    exit(1);
}

static void ask(const struct side *side, const struct question *q, struct reply *r)
{
    *r = blank;
    r->read = side->read(q->old->at, q->old->length);
    r->fill = side->fill(q->old->at, q->old->length, q->destination, r->costs, q->costs_length, r->sets, q->sets_length);
    r->interfaces = side->interfaces(q->old->at, q->old->length, q->router, r->out, q->out_length);
    r->path = side->path(q->old->at, q->old->length, q->new->at, q->new->length, q->source, q->destination,
                         q->views, q->views_length, r->trace, q->trace_length);
}

static int is_refusal(uint64_t answer)
{
    return answer >> 56 != 0;
}

/* Both sides answer alike and leave the same bytes; a refusal leaves every byte as it was. */
static void ask_both(const struct question *q)
{
    struct reply *p = &replies[0], *l = &replies[1];

    ask(&sides[0], q, p);
    ask(&sides[1], q, l);
    asked++;
    seen[p->path >> 56]++;
    if (!is_refusal(p->path))
        ended[p->path >> 16]++;
    if (p->read != l->read)
        fail("read", q);
    if (p->fill != l->fill || memcmp(p->costs, l->costs, sizeof p->costs) || memcmp(p->sets, l->sets, sizeof p->sets))
        fail("fill", q);
    if (p->interfaces != l->interfaces || memcmp(p->out, l->out, sizeof p->out))
        fail("interfaces", q);
    if (p->path != l->path || memcmp(p->trace, l->trace, sizeof p->trace))
        fail("path", q);
    if (is_refusal(p->fill) && (memcmp(p->costs, blank.costs, sizeof p->costs) || memcmp(p->sets, blank.sets, sizeof p->sets)))
        fail("a refused fill wrote", q);
    if (is_refusal(p->interfaces) && memcmp(p->out, blank.out, sizeof p->out))
        fail("a refused interface table wrote", q);
    if (is_refusal(p->path) && memcmp(p->trace, blank.trace, sizeof p->trace))
        fail("a refused path wrote", q);
}

/* Every destination, and every router as source and as the one asked for, of the inputs that are timed. */
static void check_inputs(void)
{
    static struct input in;

    for (unsigned i = 0; i < INPUTS; i++) {
        make_input((enum input_name)i, &in);
        for (unsigned d = 0; d < N; d++)
            for (unsigned s = 0; s < N; s++) {
                struct question q = {&in.old, &in.new, s, d, s, in.views, N - 1, N, N, N, (N + 1) * N};
                ask_both(&q);
            }
        struct question q = {&in.old, &in.new, in.source, in.destination, in.router, in.views, N - 1, N, N, N, (N + 1) * N};
        ask_both(&q);
        if (is_refusal(replies[0].read) || is_refusal(replies[0].path))
            fail("an input that is timed is refused", &q);
    }
}

static void draw_by_chance(struct draft *d)
{
    unsigned most;

    memset(d, 0, sizeof *d);
    d->routers = chance(50) == 0 ? 1 + chance(N) : 1 + chance(8);
    most = d->routers * (d->routers - 1) / 2;
    if (most > 260) /* 257 and more are refused by 6 */
        most = 260;
    link_by_chance(d, chance(4) == 0 ? most : chance(most + 1), chance(3) == 0 ? 65535 : 3);
    for (unsigned i = 0; i < d->routers; i++)
        d->name[i] = chance(3) == 0 ? (uint8_t)(1 + chance(16)) : 0;
}

/* One pair of routers gets another weight, none, or its first. */
static void change_draft(struct draft *d)
{
    unsigned a = chance(d->routers), b = chance(d->routers);

    if (a != b)
        link_draft(d, a, b, chance(3));
}

static void damage(struct bytes *t)
{
    static const uint8_t telling[] = {0x00, 0x01, 0x02, 0x03, 0x04, 0x05, 0x20, 0x21, 0x40, 0x41, 0x7E, 0x7F, 0x80, 0xFF};
    size_t at = t->length ? chance((unsigned)t->length) : 0;

    switch (t->length ? chance(6) : 3) {
    case 0:
        t->at[at] = (uint8_t)chance(256);
        break;
    case 1:
        t->at[at] = telling[chance(sizeof telling)];
        break;
    case 2: /* cut */
        t->length = at;
        break;
    case 3: /* bytes behind the end */
        put(t, chance(256));
        break;
    case 4: /* a byte left out */
        for (t->length--; at < t->length; at++)
            t->at[at] = t->at[at + 1];
        break;
    default: /* a byte put in */
        for (size_t i = t->length++; i > at; i--)
            t->at[i] = t->at[i - 1];
        t->at[at] = telling[chance(sizeof telling)];
        break;
    }
}

/* A router below n, mostly; else a number that is refused. */
static uint64_t number(unsigned n)
{
    switch (chance(12)) {
    case 0:
        return n;
    case 1:
        return (uint64_t)chance(n) + ((uint64_t)256 << chance(55));
    default:
        return chance(n);
    }
}

/* The length that is needed, mostly; else one less or some more. */
static size_t length_near(size_t needed)
{
    switch (chance(12)) {
    case 0:
        return needed > 0 ? needed - 1 : 0;
    case 1:
        return needed + 1 + chance(SPARE - 1);
    default:
        return needed;
    }
}

static void check_by_chance(unsigned times)
{
    static struct draft d;
    static struct bytes old, new;
    uint8_t views[N + SPARE];

    state = 2463534242u;
    for (unsigned t = 0; t < times; t++) {
        draw_by_chance(&d);
        write_table(&d, &old);
        for (unsigned changes = (unsigned[]){0, 1, 1, 1, 1, 2}[chance(6)]; changes > 0; changes--)
            change_draft(&d);
        memset(d.name, (int)chance(3), sizeof d.name);
        if (chance(20) == 0 && d.routers < N)
            d.routers++;
        write_table(&d, &new);
        for (unsigned round = 0; round < 6; round++) {
            unsigned n = d.routers;
            for (unsigned i = 0; i < sizeof views; i++)
                views[i] = (uint8_t)chance(2);
            if (chance(12) == 0)
                views[chance(n)] = (uint8_t)chance(256);
            struct question q = {&old, &new, number(n), number(n), number(n), views, length_near(n - 1), length_near(n),
                                 length_near(n), length_near(n), length_near((n + 1) * n)};
            ask_both(&q);
            if (round >= 2)
                damage(chance(2) ? &old : &new);
        }
    }
}

/* The examples of document 01, asked of both sides. */

struct table_of {
    unsigned routers;
    unsigned links[9][3];
};

static const struct table_of triangle = {3, {{0, 1, 1}, {0, 2, 5}, {1, 2, 1}}};
static const struct table_of triangle_new = {3, {{0, 1, 1}, {0, 2, 5}}};
static const struct table_of seven = {7, {{0, 1, 1}, {0, 5, 1}, {0, 6, 10}, {1, 4, 1}, {2, 3, 1}, {2, 5, 1}, {3, 4, 1}, {3, 6, 1}}};
static const struct table_of seven_new = {7, {{0, 1, 1}, {0, 5, 1}, {0, 6, 10}, {1, 4, 1}, {2, 3, 1}, {2, 5, 1}, {3, 4, 1}}};
static const struct table_of two = {2, {{0, 1, 1}}};
static const struct table_of two_new = {2, {{0}}};

static const struct path_example {
    const struct table_of *old, *new;
    unsigned source, destination;
    uint8_t views[6];
    unsigned outcome, router, hops;
    uint8_t trace[5];
} path_examples[] = {
    {&triangle, &triangle_new, 1, 2, {1, 0}, TRACER_DISCARDED, 0, 1, {1, 0}},
    {&triangle, &triangle_new, 1, 2, {1, 1}, TRACER_DELIVERED, 2, 2, {1, 0, 2}},
    {&triangle, &triangle_new, 0, 2, {0, 0}, TRACER_LOST, 1, 1, {0, 1}},
    {&seven, &seven_new, 0, 6, {0, 0, 0, 1, 1, 1}, TRACER_DISCARDED, 3, 3, {0, 1, 4, 3}},
    {&seven, &seven_new, 3, 6, {1, 1, 1, 1, 1, 1}, TRACER_DELIVERED, 6, 4, {3, 2, 5, 0, 6}},
    {&triangle, &triangle_new, 2, 2, {0, 1}, TRACER_DELIVERED, 2, 0, {2}},
    {&two, &two_new, 0, 1, {1}, TRACER_NO_ROUTE, 0, 0, {0}},
};

static const struct read_example {
    struct bytes table;
    uint64_t answer;
} read_examples[] = {
    {{0, {0}}, 1ull << 56},
    {{7, {1, 0, 1, 1, 0x7F, 0, 0}}, 1},
    {{7, {1, 0, 1, 0x40, 0x7F, 0, 0}}, 64},
    {{7, {1, 0, 1, 0x41, 0x7F, 0, 0}}, 4ull << 56},
    {{14, {1, 0, 1, 2, 4, 0, 4, 0, 1, 0, 0, 0x7F, 0, 0}}, 4ull << 56 | 4},
};

static void draw_table_of(const struct table_of *x, struct bytes *t)
{
    static struct draft d;

    memset(&d, 0, sizeof d);
    d.routers = x->routers;
    for (unsigned i = 0; x->links[i][2]; i++)
        link_draft(&d, x->links[i][0], x->links[i][1], x->links[i][2]);
    write_table(&d, t);
}

static void check_examples(void)
{
    static struct bytes old, new;
    static const uint8_t interfaces[12] = {128, 1, 1, 131, 131, 131, 128, 129, 129, 128, 1, 1};
    uint8_t views[6] = {0};

    for (unsigned i = 0; i < sizeof read_examples / sizeof read_examples[0]; i++) {
        struct question q = {&read_examples[i].table, &old, 0, 0, 0, views, 6, N, N, N, (N + 1) * N};
        ask_both(&q);
        if (replies[0].read != read_examples[i].answer)
            fail("an example of a table", &q);
    }
    for (unsigned i = 0; i < sizeof path_examples / sizeof path_examples[0]; i++) {
        const struct path_example *x = &path_examples[i];
        draw_table_of(x->old, &old);
        draw_table_of(x->new, &new);
        struct question q = {&old, &new, x->source, x->destination, 0, x->views, x->old->routers - 1, N, N, x->old->routers, (N + 1) * N};
        ask_both(&q);
        if (replies[0].path != (x->outcome << 16 | x->hops << 8 | x->router)
            || memcmp(replies[0].trace, x->trace, x->hops + 1)
            || memcmp(replies[0].trace + x->hops + 1, blank.trace + x->hops + 1, sizeof blank.trace - x->hops - 1))
            fail("an example of a path", &q);
        if (x->old == &triangle && memcmp(replies[0].out, interfaces, sizeof interfaces))
            fail("the example of an interface table", &q);
    }
}

static void check(void)
{
    memset(&blank, 0xA5, sizeof blank);
    blank.read = blank.fill = blank.interfaces = blank.path = 0;
    check_examples();
    check_by_chance(5000);
    check_inputs();
    for (unsigned i = 0; i < 12; i++)
        if (seen[i] == 0)
            fail("a number was answered to no path", 0);
    if (!ended[TRACER_DELIVERED] || !ended[TRACER_DISCARDED] || !ended[TRACER_NO_ROUTE] || !ended[TRACER_LOST])
        fail("an outcome was answered to no path", 0);
    printf("%u questions of each kind, answered alike by both sides to the last byte\n", asked);
}

/* ---- measuring */

static double now(void)
{
    struct timespec t;

    clock_gettime(CLOCK_MONOTONIC, &t);
    return (double)t.tv_sec * 1e9 + (double)t.tv_nsec;
}

static volatile uint64_t sink;

static double time_of(const struct side *side, enum job job, const struct input *in, unsigned batch)
{
    double start = now();

    for (unsigned i = 0; i < batch; i++)
        sink = do_job(side, job, in);
    return now() - start;
}

/* So many calls that a sample of plain C takes some 30 microseconds. */
static unsigned batch_for(enum job job, const struct input *in)
{
    unsigned batch = 1;

    time_of(&sides[0], job, in, 10);
    while (time_of(&sides[0], job, in, batch) < 30000)
        batch += batch / 4 + 1;
    return batch;
}

static void measure(unsigned rounds)
{
    static struct input in[INPUTS];
    static unsigned batch[JOBS][INPUTS];
    static double least[JOBS][INPUTS][2];

    for (unsigned i = 0; i < INPUTS; i++) {
        make_input((enum input_name)i, &in[i]);
        for (unsigned j = 0; j < JOBS; j++) {
            batch[j][i] = batch_for((enum job)j, &in[i]);
            least[j][i][0] = least[j][i][1] = 1e18;
        }
    }
    for (unsigned r = 0; r < rounds; r++)
        for (unsigned i = 0; i < INPUTS; i++)
            for (unsigned j = 0; j < JOBS; j++)
                for (unsigned k = 0; k < 2; k++) {
                    unsigned s = (r + k) % 2;
                    sink = do_job(&sides[s], (enum job)j, &in[i]);
                    double t = time_of(&sides[s], (enum job)j, &in[i], batch[j][i]) / batch[j][i];
                    if (t < least[j][i][s])
                        least[j][i][s] = t;
                }
    for (unsigned j = 0; j < JOBS; j++)
        for (unsigned i = 0; i < INPUTS; i++)
            for (unsigned s = 0; s < 2; s++)
                printf("%s %s %s %.1f\n", job_names[j], input_names[i], sides[s].name, least[j][i][s]);
}

static void list(void)
{
    static struct input in;
    uint8_t trace[N];

    for (unsigned i = 0; i < INPUTS; i++) {
        make_input((enum input_name)i, &in);
        uint64_t path = plain_path(in.old.at, in.old.length, in.new.at, in.new.length, in.source, in.destination, in.views, N - 1, trace, N);
        printf("input %s %u %u %u %s\n", input_names[i], in.links, in.neighbours, (unsigned)(path >> 8 & 255), input_words[i]);
    }
}

/* ---- arguments */

/* The place of a name. All are compared, so that every name takes the same number of instructions. */
static unsigned named(const char *name, const char *const *names, unsigned count)
{
    unsigned place = count;

    for (unsigned i = 0; i < count; i++)
        if (strcmp(name, names[i]) == 0)
            place = i;
    if (place == count) {
        printf("no such name: %s\n", name);
        exit(2);
    }
    return place;
}

static void run(const char *side, const char *job, const char *input, int times)
{
    static struct input in;
    const char *const side_names[2] = {sides[0].name, sides[1].name};
    const struct side *s = &sides[named(side, side_names, 2)];
    enum job j = (enum job)named(job, job_names, JOBS);

    make_input((enum input_name)named(input, input_names, INPUTS), &in);
    for (int i = 0; i < times; i++)
        sink = do_job(s, j, &in);
}

int main(int count, char **words)
{
    if (count == 2 && strcmp(words[1], "check") == 0)
        check();
    else if (count == 2 && strcmp(words[1], "list") == 0)
        list();
    else if (count == 3 && strcmp(words[1], "time") == 0)
        measure((unsigned)atoi(words[2]));
    else if (count == 6 && strcmp(words[1], "run") == 0)
        run(words[2], words[3], words[4], atoi(words[5]));
    else {
        printf("harness check | list | time ROUNDS | run SIDE JOB INPUT TIMES\n");
        return 2;
    }
    return 0;
}
