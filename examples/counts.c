/* Counts the sets of links that connect a plan: counts PLAN. Prints for each number of sound links how many of all such sets connect
   all cabinets; and below it how many links can fail at most with the plan still connected, the fewest failed links that can
   disconnect it, and how many sets of so many do. Exit status: 0 if it is answered, 1 if the plan is refused, 2 if the words are
   wrong or the file cannot be read. */

#define PROGRAM "counts"

#include "contents.h"
#include "plandesk.h"
#include "refusal.h"

/* How many sets of k links there are among m, at most 24. */
static uint64_t all_sets(unsigned m, unsigned k)
{
    uint64_t sets = 1;
    for (unsigned i = 1; i <= k; i++)
        sets = sets * (m - k + i) / i;
    return sets;
}

/* The number of the refusal, and how many links there are where they are too many. */
static void print_refused(const struct contents *plan, uint64_t refusal)
{
    print_refusal("counts", refusal);
    if (refusal == 15)
        printf("the plan has %u links, and sets are counted of 24 at most\n", plan->bytes[2]);
}

static void print_row(const uint64_t *row, unsigned m)
{
    for (unsigned i = 0; i <= m; i++)
        printf("sound %u broken %u: %" PRIu64 " of %" PRIu64 " sets connect\n", i, m - i, row[i], all_sets(m, i));
}

/* The fewest failed links that can disconnect the plan, and how many sets of so many do. */
static void print_least_cut(const uint64_t *row, unsigned m)
{
    unsigned failed = 0;
    while (failed <= m && row[m - failed] == all_sets(m, failed))
        failed++;
    if (failed > m)
        printf("No failed links disconnect it.\n");
    else
        printf("The fewest failed links that can disconnect it: %u, by %" PRIu64 " of %" PRIu64 " sets.\n", failed,
               all_sets(m, failed) - row[m - failed], all_sets(m, failed));
}

static void print_meaning(const uint64_t *row, unsigned m)
{
    unsigned least = 0;
    while (least <= m && row[least] == 0)
        least++;
    if (least > m) {
        printf("The plan is not connected, whichever links are sound.\n");
        return;
    }
    printf("At most %u of %u links can fail with the plan still connected.\n", m - least, m);
    print_least_cut(row, m);
}

int main(int count, char **words)
{
    struct contents plan;
    uint64_t row[PLANDESK_ROW], refused;

    if (count != 2) {
        fprintf(stderr, "usage: counts PLAN\n");
        return 2;
    }
    read_file(words[1], &plan);

    refused = counts(plan.bytes, plan.length, row, PLANDESK_ROW);
    if (refused != 0) {
        print_refused(&plan, refused);
        return 1;
    }
    print_row(row, plan.bytes[2]);
    print_meaning(row, plan.bytes[2]);
    return 0;
}
