/* Asks about some cabinets of a plan: chosen PLAN NODE NODE .. Prints the chance that all cabinets hang together, and below it
   that of these alone, each within 20,000 steps. Exit status: 0 if both are answered, 1 if one is refused, 2 if the words are
   wrong or the file cannot be read. */

#define PROGRAM "chosen"

#include "contents.h"
#include "nodes.h"
#include "print.h"

/* The choice of one node. Which nodes a plan has is for the call to say. */
static uint64_t read_node(const char *word)
{
    size_t length = strlen(word);
    unsigned long node = length == 0 || length > 2 || strspn(word, "0123456789") != length ? 64 : strtoul(word, NULL, 10);
    if (node > 63)
        fail(word, "not a node");
    return (uint64_t)1 << node;
}

int main(int count, char **words)
{
    struct contents plan;
    uint8_t answer[PLANDESK_ANSWER];
    uint64_t choice = 0, refused_all, refused;

    if (count < 3) {
        fprintf(stderr, "usage: chosen PLAN NODE ..\n");
        return 2;
    }
    for (int i = 2; i < count; i++)
        choice |= read_node(words[i]);
    read_file(words[1], &plan);

    refused_all = figure(plan.bytes, plan.length, NULL, 0, all_nodes(plan.bytes, plan.length), 20000, answer, sizeof answer);
    print("all cabinets", refused_all, answer);
    refused = figure(plan.bytes, plan.length, NULL, 0, choice, 20000, answer, sizeof answer);
    print("these alone", refused, answer);
    return refused_all == 0 && refused == 0 ? 0 : 1;
}
