/* Prints what a call returned and left in its answer buffer. */

#ifndef PRINT_H
#define PRINT_H

#include "plandesk.h"
#include "refusal.h"

static uint32_t number(const uint8_t *from)
{
    return from[0] | (uint32_t)from[1] << 8 | (uint32_t)from[2] << 16 | (uint32_t)from[3] << 24;
}

static void print(const char *question, uint64_t refusal, const uint8_t *answer)
{
    if (refusal != 0) {
        print_refusal(question, refusal);
        return;
    }
    printf("%s: low %" PRId32 " high %" PRId32 " steps %" PRIu32 " finished %" PRIu32 "\n", question,
           (int32_t)number(answer), (int32_t)number(answer + 4), number(answer + 8), number(answer + 12));
}

#endif
