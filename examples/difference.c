/* Compares two plans: difference A.plan B.plan [LIMIT [CABLE.table]]. Prints the figure of each and the first less the
   second, each within 20,000 steps or the limit given, and all three under the table if one is given. Exit status: 0 if all
   three are answered, 1 if one is refused, 2 if the words are wrong, a file cannot be read or the table's file is empty. */

#include "nodes.h"
#include "print.h"

#include <errno.h>
#include <stdlib.h>
#include <string.h>

/* One byte more than a table, which is longer than any plan: what is longer is refused for its length. */
struct contents {
    uint8_t bytes[PLANDESK_TABLE + 1];
    size_t length;
};

static void fail(const char *what, const char *why)
{
    fprintf(stderr, "difference: %s: %s\n", what, why);
    exit(2);
}

static void read_file(const char *name, struct contents *to)
{
    FILE *file = fopen(name, "rb");
    if (file == NULL)
        fail(name, strerror(errno));
    to->length = fread(to->bytes, 1, sizeof to->bytes, file);
    if (ferror(file))
        fail(name, strerror(errno));
    fclose(file);
}

/* A file of no bytes would ask for the built-in table. */
static void read_table(const char *name, struct contents *table)
{
    read_file(name, table);
    if (table->length == 0)
        fail(name, "the table is empty");
}

static uint64_t read_limit(const char *word)
{
    size_t length = strlen(word);
    if (length == 0 || length > 18 || strspn(word, "0123456789") != length)
        fail(word, "not a limit");
    return strtoull(word, NULL, 10);
}

/* The figure of all nodes. */
static uint64_t figure_of(const struct contents *plan, const struct contents *table, uint64_t limit, uint8_t *answer)
{
    uint64_t choice = all_nodes(plan->bytes, plan->length);
    return figure(plan->bytes, plan->length, table->bytes, table->length, choice, limit, answer, PLANDESK_ANSWER);
}

int main(int count, char **words)
{
    struct contents a, b, table = {.length = 0};
    uint8_t answer[PLANDESK_ANSWER] = {0};
    uint64_t limit = 20000, refused_a, refused_b, refused;

    if (count < 3 || count > 5) {
        fprintf(stderr, "usage: difference A.plan B.plan [LIMIT [CABLE.table]]\n");
        return 2;
    }
    read_file(words[1], &a);
    read_file(words[2], &b);
    if (count > 3)
        limit = read_limit(words[3]);
    if (count > 4)
        read_table(words[4], &table);

    refused_a = figure_of(&a, &table, limit, answer);
    print("A", refused_a, answer);
    refused_b = figure_of(&b, &table, limit, answer);
    print("B", refused_b, answer);
    refused = difference(a.bytes, a.length, b.bytes, b.length, table.bytes, table.length, limit, answer, sizeof answer);
    print("A - B", refused, answer);
    return refused_a == 0 && refused_b == 0 && refused == 0 ? 0 : 1;
}
