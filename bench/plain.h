/* Four of the library's questions in plain C, with the same arguments and the same 64-bit answers as the functions tracer_*. */
#ifndef PLAIN_H
#define PLAIN_H

#include <stddef.h>
#include <stdint.h>

uint64_t plain_read(const uint8_t *table, size_t length);
uint64_t plain_fill(const uint8_t *table, size_t length, uint64_t destination,
                    uint32_t *costs, size_t costs_length, uint64_t *sets, size_t sets_length);
uint64_t plain_interfaces(const uint8_t *table, size_t length, uint64_t router, uint8_t *out, size_t out_length);
uint64_t plain_path(const uint8_t *old, size_t old_length, const uint8_t *new, size_t new_length,
                    uint64_t source, uint64_t destination, const uint8_t *views, size_t views_length,
                    uint8_t *trace, size_t trace_length);

#endif
