/* Asks libtracer.a, through include/tracer.h, every question of a question file on standard input and prints the answers;
 * tests/README.md lays both out. The letters l and s are no questions of the C side and are passed over.
 *
 * An answer has to be made of its fields alone: a line ends with ` stray` where the 64-bit number holds anything else. */
#include <stdio.h>
#include <string.h>

#include "tracer.h"

enum { IN_FRONT = 8, MOST_LOAD = 8192, MOST_BYTES = 4200, MOST_PLACES = 80 };

struct load {
    uint8_t bytes[MOST_LOAD];
    size_t length;
};

struct question {
    char letter;
    size_t load, room, second_room;
    uint64_t x, y, z;
};

static struct load old, new_, views;

/* ---- the question file */

static uint64_t number_at(const uint8_t *bytes, int size)
{
    uint64_t x = 0;
    for (int k = 0; k < size; k++)
        x = x << 8 | bytes[k];
    return x;
}

static int next_question(struct question *q)
{
    uint8_t head[32];
    if (fread(head, 1, sizeof head, stdin) != sizeof head)
        return 0;
    q->letter = (char)head[0];
    q->load = (size_t)number_at(head + 2, 2);
    q->room = (size_t)number_at(head + 4, 2);
    q->second_room = (size_t)number_at(head + 6, 2);
    q->x = number_at(head + 8, 8);
    q->y = number_at(head + 16, 8);
    q->z = number_at(head + 24, 8);
    return q->load <= MOST_LOAD && q->room <= (q->letter == 'f' ? MOST_PLACES : MOST_BYTES) && q->second_room <= MOST_PLACES;
}

static void hold(struct load *load, size_t size)
{
    load->length = fread(load->bytes, 1, size, stdin);
}

/* ---- lent outputs, with eight elements in front of them and eight behind */

static uint8_t bytes[MOST_BYTES + 2 * IN_FRONT];
static uint32_t costs[MOST_PLACES + 2 * IN_FRONT];
static uint64_t sets[MOST_PLACES + 2 * IN_FRONT];

static void fresh_outputs(void)
{
    for (size_t i = 0; i < sizeof bytes; i++)
        bytes[i] = (uint8_t)(37 * i + 11);
    for (uint32_t i = 0; i < MOST_PLACES + 2 * IN_FRONT; i++) {
        costs[i] = 0xC0000000u + i;
        sets[i] = 0x5E70000000000000u + i;
    }
}

static void print_bytes(size_t room)
{
    printf(" ");
    for (size_t i = 0; i < room + 2 * IN_FRONT; i++)
        printf("%02x", bytes[i]);
}

static void print_costs(size_t room)
{
    printf(" ");
    for (size_t i = 0; i < room + 2 * IN_FRONT; i++)
        printf("%08x", costs[i]);
}

static void print_sets(size_t room)
{
    printf(" ");
    for (size_t i = 0; i < room + 2 * IN_FRONT; i++)
        printf("%08x%08x", (unsigned)(sets[i] >> 32), (unsigned)sets[i]);
}

/* ---- answers */

static int is_stray;

/* The letter and the refusal's fields; the answer is whether the question was answered. */
static int print_refusal(char letter, uint64_t answer)
{
    unsigned number = tracer_number(answer);
    is_stray = 0;
    printf("%c", letter);
    if (number == 0) {
        printf(" 0 0 0");
        return 1;
    }
    printf(" %u %u %u", number, tracer_table(answer), tracer_place(answer));
    is_stray = (answer & 0xFFFFFFFF0000u) != 0; /* no place is above TRACER_MOST_TABLE_BYTES */
    return 0;
}

/* The fields of an answered question, and what its number has to be if it holds nothing else. */
static void print_fields(uint64_t answer, uint64_t made_of, const unsigned *fields, int count)
{
    for (int k = 0; k < count; k++)
        printf(" %u", fields[k]);
    is_stray = answer != made_of;
}

static void end_line(void)
{
    printf(is_stray ? " stray\n" : "\n");
}

static void print_zeros(int count)
{
    for (int k = 0; k < count; k++)
        printf(" 0");
}

static void reading(void)
{
    uint64_t answer = tracer_read(old.bytes, old.length);
    unsigned fields[] = {tracer_routers(answer), tracer_links(answer)};
    if (print_refusal('r', answer))
        print_fields(answer, fields[0] | fields[1] << 8, fields, 2);
    else
        print_zeros(2);
}

static void pairing(void)
{
    uint64_t answer = tracer_pair(old.bytes, old.length, new_.bytes, new_.length);
    unsigned fields[] = {tracer_routers(answer), tracer_differing(answer)};
    if (print_refusal('p', answer))
        print_fields(answer, fields[0] | fields[1] << 8, fields, 2);
    else
        print_zeros(2);
}

static void entry(const struct question *q)
{
    uint64_t answer = tracer_entry(old.bytes, old.length, q->x, q->y, q->z);
    unsigned fields[] = {tracer_code(answer)};
    if (print_refusal('e', answer))
        print_fields(answer, fields[0], fields, 1);
    else
        print_zeros(1);
}

static void interfaces(const struct question *q)
{
    uint64_t answer = tracer_interfaces(old.bytes, old.length, q->x, bytes + IN_FRONT, q->room);
    unsigned fields[] = {tracer_written(answer)};
    if (print_refusal('i', answer))
        print_fields(answer, fields[0], fields, 1);
    else
        print_zeros(1);
    print_bytes(q->room);
}

static void filling(const struct question *q)
{
    uint64_t answer = tracer_fill(old.bytes, old.length, q->x, costs + IN_FRONT, q->room, sets + IN_FRONT, q->second_room);
    unsigned fields[] = {tracer_routers(answer)};
    if (print_refusal('f', answer))
        print_fields(answer, fields[0], fields, 1);
    else
        print_zeros(1);
    print_costs(q->room);
    print_sets(q->second_room);
}

static void chosen(const struct question *q)
{
    uint64_t answer = tracer_chosen(q->x);
    unsigned fields[] = {tracer_hop(answer), tracer_members(answer)};
    printf("c");
    print_fields(answer, fields[0] | fields[1] << 8, fields, 2);
}

static void path(const struct question *q)
{
    uint64_t answer = tracer_path(old.bytes, old.length, new_.bytes, new_.length, q->x, q->y,
                                  views.bytes, views.length, bytes + IN_FRONT, q->room);
    unsigned fields[] = {tracer_outcome(answer), tracer_router(answer), tracer_hops(answer)};
    if (print_refusal('t', answer))
        print_fields(answer, fields[0] << 16 | fields[2] << 8 | fields[1], fields, 3);
    else
        print_zeros(3);
    print_bytes(q->room);
}

static void name(char letter, uint64_t answer)
{
    unsigned fields[] = {tracer_is_named(answer), tracer_name_table(answer), tracer_name_length(answer), tracer_name_place(answer)};
    if (!print_refusal(letter, answer)) {
        print_zeros(4);
        printf(" =");
        return;
    }
    print_fields(answer, (uint64_t)fields[3] << 32 | fields[0] << 24 | fields[1] << 16 | fields[2] << 8, fields, 4);
    printf(" =");
    fwrite(tracer_name_bytes(answer, old.bytes, new_.bytes), 1, fields[2], stdout);
}

static void ask(const struct question *q)
{
    fresh_outputs();
    switch (q->letter) {
    case 'r': reading(); break;
    case 'p': pairing(); break;
    case 'e': entry(q); break;
    case 'i': interfaces(q); break;
    case 'f': filling(q); break;
    case 'c': chosen(q); break;
    case 't': path(q); break;
    case 'a': name('a', tracer_name_in(old.bytes, old.length, q->x)); break;
    case 'b': name('b', tracer_name(old.bytes, old.length, new_.bytes, new_.length, q->x)); break;
    default: return;
    }
    end_line();
}

int main(void)
{
    struct question q;
    while (next_question(&q)) {
        switch (q.letter) {
        case 'o': hold(&old, q.load); break;
        case 'n': hold(&new_, q.load); break;
        case 't': hold(&views, q.load); break;
        default: break;
        }
        ask(&q);
    }
    return 0;
}
