/* Prints what a call is refused with. */

#ifndef REFUSAL_H
#define REFUSAL_H

#include <inttypes.h>
#include <stdint.h>
#include <stdio.h>

/* A refusal names a link if its number is 5 or 6, of plan B's 25 or 26. */
static void print_refusal(const char *question, uint64_t refusal)
{
    uint64_t cause = refusal % 256;
    if (cause % 20 == 5 || cause % 20 == 6)
        printf("%s: refused %" PRIu64 " at link %" PRIu64 "\n", question, cause, refusal / 256);
    else
        printf("%s: refused %" PRIu64 "\n", question, cause);
}

#endif
