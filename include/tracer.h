/* The path tracer for C control programs: link tables, entries, interface tables and paths through mixed views.
 *
 * A link table tells N, the number of a site's routers, which are 0 to N - 1, names of some of them, and the links between
 * them with their weights. While a new table is taken over, some routers still use the old one: each has an old view or a
 * new view of the site.
 *
 * Every function answers one question by one 64-bit number, and every input is answered or refused. The helpers below
 * take the number apart; docs/C-SIDE.md has it byte by byte, and a table's bytes. Link with libtracer.a, which
 * `rt lib` in crates/tracer makes.
 *
 * A table, a view list and an output are each a pointer and the number of elements. The caller keeps:
 *   - a pointer is not null, also where there are no elements, and aligned as C aligns its type;
 *   - so many elements may be read there, and of an output written;
 *   - an output overlaps no other argument.
 * Numbers (router, previous hop, source, destination) may have any value: one out of range is refused by 9.
 * On a refusal no output changes.
 */
#ifndef TRACER_H
#define TRACER_H

#include <stddef.h>
#include <stdint.h>

#ifdef __cplusplus
extern "C" {
#endif

/* ---- numbers */

/* What refuses a question, each in these cases only. 1 to 7 come with a table and a place; from 8 upwards both are 0. The
 * first that applies is given: the old (or only) table's, the new table's, then 8, 9, 11, 10; in a table its first bad
 * record's. */
enum tracer_refusals {
    TRACER_CUT = 1,            /* fewer than 3 bytes remain for a header, or the contents run past the end */
    TRACER_BAD_TAG = 2,        /* unknown tag, first tag not 0x01, a second 0x01, or a tag below the one before */
    TRACER_BAD_LENGTH = 3,     /* a length not allowed for the tag */
    TRACER_OUT_OF_RANGE = 4,   /* N, router, weight or name byte out of range, or a not below b */
    TRACER_NOT_ABOVE = 5,      /* name or link not above the one before it */
    TRACER_TOO_MANY_LINKS = 6, /* a 257th link */
    TRACER_BYTES_BEHIND = 7,   /* bytes behind the end record */
    TRACER_TOO_DIFFERENT = 8,  /* two tables with different N, or more than one link that is in only one table or has another
                                * weight */
    TRACER_BAD_ROUTER = 9,     /* a router number not below N; a previous hop that is neither 255 nor a router below N, or
                                * equals the router asked about */
    TRACER_SHORT_OUTPUT = 10,  /* a lent output too short */
    TRACER_BAD_VIEWS = 11      /* a view list shorter than N - 1, or a byte other than 0 and 1 among its first N - 1 */
};

/* Codes of entries and interface tables, and outcomes of paths. A code of 0 to 63 forwards to that router. */
enum tracer_codes {
    TRACER_DELIVERED = 128,
    TRACER_DISCARDED = 129,
    TRACER_NO_ROUTE = 130,
    TRACER_OWN_ROW = 131, /* in an interface table only: the row of the router itself */
    TRACER_LOST = 132     /* of a path only: the link taken is not in the new table */
};

/* Bytes of a view list; also which of two tables is meant. */
enum tracer_views { TRACER_OLD = 0, TRACER_NEW = 1 };

/* Sizes that are always enough. */
enum tracer_sizes {
    TRACER_MOST_ROUTERS = 64,        /* costs, sets, bytes of a trace; one more than bytes of a view list */
    TRACER_MOST_TABLE_BYTES = 3079,  /* a longer table is refused, by what stands in its first 4,096 bytes */
    TRACER_MOST_INTERFACES = 65 * 64 /* bytes of an interface table */
};

#define TRACER_STARTS_HERE 255u    /* as the previous hop: the packet starts here */
#define TRACER_NO_HOP 255u         /* the chosen hop of an empty set */
#define TRACER_NO_COST 4294967295u /* the cost where there is no route */

/* ---- questions */

/* Is this a table? Answers N (tracer_routers) and how many links it has (tracer_links). */
uint64_t tracer_read(const uint8_t *table, size_t table_length);

/* May these be an old and a new table? Answers N (tracer_routers) and how many links differ, 0 or 1 (tracer_differing). */
uint64_t tracer_pair(const uint8_t *old_table, size_t old_length, const uint8_t *new_table, size_t new_length);

/* What does a router do with a packet from that previous hop, or TRACER_STARTS_HERE, to that destination? Answers the code
 * (tracer_code). */
uint64_t tracer_entry(const uint8_t *table, size_t table_length, uint64_t router, uint64_t previous, uint64_t destination);

/* The router's full interface table, (N + 1) x N bytes: row 255 first, then previous hops 0 to N - 1, a column for each
 * destination. The output needs so many bytes. Answers how many are written (tracer_written); later bytes stay. */
uint64_t tracer_interfaces(const uint8_t *table, size_t table_length, uint64_t router, uint8_t *out, size_t out_length);

/* For each router its cost to the destination, or TRACER_NO_COST, and its next-hop set, bit k for router k. Each output needs
 * N places. Answers N (tracer_routers), which is how many places of each are written; later places stay. */
uint64_t tracer_fill(const uint8_t *table, size_t table_length, uint64_t destination,
                     uint32_t *costs, size_t costs_length, uint64_t *sets, size_t sets_length);

/* The chosen hop of a set, or TRACER_NO_HOP (tracer_hop), and how many members it has (tracer_members). Never refused. */
uint64_t tracer_chosen(uint64_t set);

/* Follows one packet. Byte n of the view list, TRACER_OLD or TRACER_NEW, says which view the n-th router that decides uses,
 * counted from 0; the destination reads none, so the list needs N - 1 bytes. Answers the outcome (tracer_outcome), the
 * router where the packet ended (tracer_router) and the hops (tracer_hops). The trace needs N bytes and gets the visited
 * routers, hops + 1 of them; later bytes stay. */
uint64_t tracer_path(const uint8_t *old_table, size_t old_length, const uint8_t *new_table, size_t new_length,
                     uint64_t source, uint64_t destination,
                     const uint8_t *views, size_t views_length, uint8_t *trace, size_t trace_length);

/* Where the name of a router stands: in the new table, or else in the old. Answers whether it has one (tracer_is_named), in
 * which table (tracer_name_table), at which place (tracer_name_place) and its length (tracer_name_length). The tables may
 * differ at will (8 is not tested); 9 is given unless the router is below both N. */
uint64_t tracer_name(const uint8_t *old_table, size_t old_length, const uint8_t *new_table, size_t new_length,
                     uint64_t router);

/* The same with one table. */
uint64_t tracer_name_in(const uint8_t *table, size_t table_length, uint64_t router);

/* ---- taking an answer apart */

/* Byte k of an answer, k from 0 (the lowest) to 7. */
static inline unsigned tracer_byte(uint64_t answer, int k) { return (unsigned)(answer >> (8 * k) & 0xFF); }

/* Bytes k + 1 and k as one number, k from 0 to 6. */
static inline unsigned tracer_two_bytes(uint64_t answer, int k) { return (unsigned)(answer >> (8 * k) & 0xFFFF); }

/* Of every question but tracer_chosen: the number that refuses it, 0 if it is answered. */
static inline unsigned tracer_number(uint64_t answer) { return tracer_byte(answer, 7); }

/* Of a refused question only: which table, TRACER_OLD (or the only one) or TRACER_NEW, and the place in it, at most
 * TRACER_MOST_TABLE_BYTES. */
static inline unsigned tracer_table(uint64_t answer) { return tracer_byte(answer, 6); }
static inline unsigned tracer_place(uint64_t answer) { return (unsigned)(answer & 0xFFFFFFFFFFFFu); }

/* Of an answered question only, down to tracer_name_bytes: of a refused one these numbers have no meaning, but for
 * tracer_is_named. */

/* Of tracer_read, tracer_pair and tracer_fill: N. */
static inline unsigned tracer_routers(uint64_t answer) { return tracer_byte(answer, 0); }

/* Of tracer_read. */
static inline unsigned tracer_links(uint64_t answer) { return tracer_two_bytes(answer, 1); }

/* Of tracer_pair. */
static inline unsigned tracer_differing(uint64_t answer) { return tracer_byte(answer, 1); }

/* Of tracer_entry: 0 to 63, TRACER_DELIVERED, TRACER_DISCARDED or TRACER_NO_ROUTE. */
static inline unsigned tracer_code(uint64_t answer) { return tracer_byte(answer, 0); }

/* Of tracer_interfaces. */
static inline unsigned tracer_written(uint64_t answer) { return tracer_two_bytes(answer, 0); }

/* Of tracer_chosen. */
static inline unsigned tracer_hop(uint64_t answer) { return tracer_byte(answer, 0); }
static inline unsigned tracer_members(uint64_t answer) { return tracer_byte(answer, 1); }

/* Of tracer_path: TRACER_DELIVERED, TRACER_DISCARDED, TRACER_NO_ROUTE or TRACER_LOST; the links really crossed; the router
 * where the packet ended. */
static inline unsigned tracer_outcome(uint64_t answer) { return tracer_byte(answer, 2); }
static inline unsigned tracer_hops(uint64_t answer) { return tracer_byte(answer, 1); }
static inline unsigned tracer_router(uint64_t answer) { return tracer_byte(answer, 0); }

/* Of tracer_name and tracer_name_in: 1 if the router has a name; else, and of a refusal too, 0. */
static inline unsigned tracer_is_named(uint64_t answer) { return tracer_byte(answer, 3); }

/* Of a name only: the table that it is in, TRACER_OLD (or the only one) or TRACER_NEW; the place of its first byte there; its
 * length, 1 to 16. */
static inline unsigned tracer_name_table(uint64_t answer) { return tracer_byte(answer, 2); }
static inline unsigned tracer_name_place(uint64_t answer) { return tracer_two_bytes(answer, 4); }
static inline unsigned tracer_name_length(uint64_t answer) { return tracer_byte(answer, 1); }

/* Of a name only: its very bytes inside the caller's table, with no 0 behind them. With one table, give it twice. */
static inline const uint8_t *tracer_name_bytes(uint64_t answer, const uint8_t *old_table, const uint8_t *new_table)
{
    return (tracer_name_table(answer) == TRACER_NEW ? new_table : old_table) + tracer_name_place(answer);
}

/* ---- words */

/* A refusal's number in document 01's words. */
static inline const char *tracer_refusal_words(unsigned number)
{
    switch (number) {
    case 0: return "answered";
    case TRACER_CUT: return "fewer than 3 bytes remain for a header, or the contents run past the end";
    case TRACER_BAD_TAG: return "unknown tag, first tag not 0x01, a second 0x01, or a tag below the one before";
    case TRACER_BAD_LENGTH: return "a length not allowed for the tag";
    case TRACER_OUT_OF_RANGE: return "N, router, weight or name byte out of range, or a not below b";
    case TRACER_NOT_ABOVE: return "name or link not above the one before it";
    case TRACER_TOO_MANY_LINKS: return "a 257th link";
    case TRACER_BYTES_BEHIND: return "bytes behind the end record";
    case TRACER_TOO_DIFFERENT:
        return "two tables with different N, or more than one link that is in only one table or has another weight";
    case TRACER_BAD_ROUTER:
        return "a router number not below N; a previous hop that is neither 255 nor a router below N, "
               "or equals the router asked about";
    case TRACER_SHORT_OUTPUT: return "a lent output too short";
    case TRACER_BAD_VIEWS: return "a view list shorter than N - 1, or a byte other than 0 and 1 among its first N - 1";
    default: return "no such number";
    }
}

/* The outcome of a path in words. */
static inline const char *tracer_outcome_words(unsigned outcome)
{
    switch (outcome) {
    case TRACER_DELIVERED: return "delivered";
    case TRACER_DISCARDED: return "discarded";
    case TRACER_NO_ROUTE: return "no route";
    case TRACER_LOST: return "lost";
    default: return "no such outcome";
    }
}

#ifdef __cplusplus
}
#endif

#endif
