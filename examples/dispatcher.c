/* The dispatcher's desk: which path a packet takes between every two cabinets while the routers change over.
 *
 *   dispatcher OLD NEW VIEWS
 *
 * OLD and NEW are files with link tables. VIEWS has an o (old view) or an n (new view) for each router that decides, in
 * order; its last letter holds for all later ones. The exit status is 0 if all was answered and printed, 1 if the tables
 * are refused, 2 if something could not be read or written.
 */
#include <stdio.h>
#include <string.h>

#include "tracer.h"

/* A table as read from its file. A longer one is refused by what fits here, with the same number and place. */
struct table {
    uint8_t bytes[4096];
    size_t length;
};

/* A site while it changes over. */
struct site {
    struct table old_table, new_table;
    unsigned routers;
    char names[TRACER_MOST_ROUTERS][20]; /* of each cabinet, with a 0 behind it */
    uint8_t views[TRACER_MOST_ROUTERS];
};

/* How many paths had each outcome. */
struct tally {
    unsigned delivered, discarded, no_route, lost;
};

static int read_table(const char *file, struct table *table)
{
    FILE *in = fopen(file, "rb");
    int good = in != NULL;
    if (good) {
        table->length = fread(table->bytes, 1, sizeof table->bytes, in);
        good = !ferror(in);
        fclose(in);
    }
    if (!good)
        fprintf(stderr, "dispatcher: %s cannot be read\n", file);
    return good;
}

/* The view list that the letters say. */
static int read_views(const char *letters, uint8_t views[TRACER_MOST_ROUTERS])
{
    size_t given = strlen(letters);
    if (given == 0 || strspn(letters, "on") != given) {
        fprintf(stderr, "dispatcher: the views are a row of o and n\n");
        return 0;
    }
    for (size_t n = 0; n < TRACER_MOST_ROUTERS; n++)
        views[n] = letters[n < given ? n : given - 1] == 'n' ? TRACER_NEW : TRACER_OLD;
    return 1;
}

/* The name of each cabinet, or its number where it has none. */
static void find_names(struct site *site)
{
    const struct table *old = &site->old_table, *new_ = &site->new_table;
    for (unsigned router = 0; router < site->routers; router++) {
        char *name = site->names[router];
        uint64_t answer = tracer_name(old->bytes, old->length, new_->bytes, new_->length, router);
        if (tracer_is_named(answer)) {
            memcpy(name, tracer_name_bytes(answer, old->bytes, new_->bytes), tracer_name_length(answer));
            name[tracer_name_length(answer)] = '\0';
        } else {
            snprintf(name, sizeof site->names[router], "cabinet %u", router);
        }
    }
}

static void print_refusal(uint64_t answer)
{
    unsigned number = tracer_number(answer);
    fprintf(stderr, "dispatcher: refused by %u", number);
    if (number < TRACER_TOO_DIFFERENT)
        fprintf(stderr, " in the %s table at byte %u", tracer_table(answer) == TRACER_NEW ? "new" : "old", tracer_place(answer));
    fprintf(stderr, ": %s\n", tracer_refusal_words(number));
}

static void count(struct tally *tally, unsigned outcome)
{
    switch (outcome) {
    case TRACER_DELIVERED: tally->delivered++; break;
    case TRACER_DISCARDED: tally->discarded++; break;
    case TRACER_NO_ROUTE: tally->no_route++; break;
    default: tally->lost++;
    }
}

/* One packet's line for the desk. It cannot be refused: the tables go together, source and destination are routers of
 * theirs, and the view list and the trace are long enough for every table. */
static void print_path(const struct site *site, unsigned source, unsigned destination, struct tally *tally)
{
    uint8_t trace[TRACER_MOST_ROUTERS];
    uint64_t answer = tracer_path(site->old_table.bytes, site->old_table.length, site->new_table.bytes, site->new_table.length,
                                  source, destination, site->views, sizeof site->views, trace, sizeof trace);
    count(tally, tracer_outcome(answer));
    printf("%-16s %-16s %-9s  %4u  ", site->names[source], site->names[destination],
           tracer_outcome_words(tracer_outcome(answer)), tracer_hops(answer));
    for (unsigned n = 0; n <= tracer_hops(answer); n++)
        printf("%s%s", n == 0 ? "" : " > ", site->names[trace[n]]);
    printf("\n");
}

static void print_paths(const struct site *site)
{
    struct tally tally = {0, 0, 0, 0};
    printf("%-16s %-16s %-9s  %4s  %s\n", "from", "to", "outcome", "hops", "path");
    for (unsigned source = 0; source < site->routers; source++)
        for (unsigned destination = 0; destination < site->routers; destination++)
            if (source != destination)
                print_path(site, source, destination, &tally);
    printf("%u delivered, %u discarded, %u no route, %u lost\n", tally.delivered, tally.discarded, tally.no_route, tally.lost);
}

int main(int arguments, char **words)
{
    static struct site site;
    if (arguments != 4) {
        fprintf(stderr, "usage: dispatcher OLD NEW VIEWS\n");
        return 2;
    }
    if (!read_table(words[1], &site.old_table) || !read_table(words[2], &site.new_table) || !read_views(words[3], site.views))
        return 2;

    uint64_t pair = tracer_pair(site.old_table.bytes, site.old_table.length, site.new_table.bytes, site.new_table.length);
    if (tracer_number(pair) != 0) {
        print_refusal(pair);
        return 1;
    }
    site.routers = tracer_routers(pair);
    find_names(&site);
    printf("cabinets %u, links changed %u, views %s\n", site.routers, tracer_differing(pair), words[3]);
    print_paths(&site);
    if (fflush(stdout) != 0 || ferror(stdout)) {
        fprintf(stderr, "dispatcher: not all could be written\n");
        return 2;
    }
    return 0;
}
