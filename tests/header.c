/* Prints every number of include/tracer.h by its name, and the words for refusals and outcomes. */
#include <stdio.h>

#include "tracer.h"

#define PRINT(name) printf("%s %u\n", #name, (unsigned)(name))

int main(void)
{
    PRINT(TRACER_CUT);
    PRINT(TRACER_BAD_TAG);
    PRINT(TRACER_BAD_LENGTH);
    PRINT(TRACER_OUT_OF_RANGE);
    PRINT(TRACER_NOT_ABOVE);
    PRINT(TRACER_TOO_MANY_LINKS);
    PRINT(TRACER_BYTES_BEHIND);
    PRINT(TRACER_TOO_DIFFERENT);
    PRINT(TRACER_BAD_ROUTER);
    PRINT(TRACER_SHORT_OUTPUT);
    PRINT(TRACER_BAD_VIEWS);
    PRINT(TRACER_DELIVERED);
    PRINT(TRACER_DISCARDED);
    PRINT(TRACER_NO_ROUTE);
    PRINT(TRACER_OWN_ROW);
    PRINT(TRACER_LOST);
    PRINT(TRACER_OLD);
    PRINT(TRACER_NEW);
    PRINT(TRACER_MOST_ROUTERS);
    PRINT(TRACER_MOST_TABLE_BYTES);
    PRINT(TRACER_MOST_INTERFACES);
    PRINT(TRACER_STARTS_HERE);
    PRINT(TRACER_NO_HOP);
    PRINT(TRACER_NO_COST);
    for (unsigned number = 0; number <= 12; number++)
        printf("%u: %s\n", number, tracer_refusal_words(number));
    for (unsigned outcome = 127; outcome <= 133; outcome++)
        printf("%u: %s\n", outcome, tracer_outcome_words(outcome));
    return 0;
}
