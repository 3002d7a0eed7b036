/* Asks a question of each of the planning desk's calls but sitting and counts, and prints the answers. */

#include "print.h"

/* Two nodes, and two links between them of 0.9 and 0.8. */
static const uint8_t two_links[] = {
    2, 0, 2, 0,
    0, 1, 0, 1,
    0x00, 0xe9, 0xa4, 0x35, 0x00, 0x08, 0xaf, 0x2f,
};

/* The same without the second link. */
static const uint8_t one_link[] = {
    2, 0, 1, 0,
    0, 1,
    0x00, 0xe9, 0xa4, 0x35,
};

/* Four nodes, each two joined by a link of 0.5: it needs one split. */
static const uint8_t four_nodes[] = {
    4, 0, 6, 0,
    0, 1, 0, 2, 0, 3, 1, 2, 1, 3, 2, 3,
    0x00, 0x65, 0xcd, 0x1d, 0x00, 0x65, 0xcd, 0x1d, 0x00, 0x65, 0xcd, 0x1d,
    0x00, 0x65, 0xcd, 0x1d, 0x00, 0x65, 0xcd, 0x1d, 0x00, 0x65, 0xcd, 0x1d,
};

/* Two nodes, and a link of 500 metres between them. */
static const uint8_t one_length[] = {
    2, 0, 1, 0,
    0, 1,
    5, 0, 0, 0x80,
};

/* A buyer's cable of which each hundred metres more take 100,000 from the value. */
static void fill(uint8_t *table)
{
    for (uint32_t k = 0; k < PLANDESK_TABLE / 4; k++)
        for (int i = 0; i < 4; i++)
            table[4 * k + i] = (PLANDESK_ONE - 100000 * k) >> 8 * i;
}

int main(void)
{
    uint8_t answer[PLANDESK_ANSWER] = {0}, table[PLANDESK_TABLE];
    uint64_t r;

    printf("check, two links: %" PRIu64 "\n", check(two_links, sizeof two_links));
    printf("check, a byte short: %" PRIu64 "\n", check(two_links, sizeof two_links - 1));

    r = figure(two_links, sizeof two_links, NULL, 0, PLANDESK_ALL_NODES(2), 20000, answer, sizeof answer);
    print("figure, two links", r, answer);
    r = figure(four_nodes, sizeof four_nodes, NULL, 0, PLANDESK_ALL_NODES(4), 20000, answer, sizeof answer);
    print("figure, four nodes", r, answer);
    r = figure(four_nodes, sizeof four_nodes, NULL, 0, PLANDESK_ALL_NODES(4), 0, answer, sizeof answer);
    print("figure, four nodes, no step", r, answer);
    r = figure(four_nodes, sizeof four_nodes, NULL, 0, 15, PLANDESK_MOST_STEPS + 1, answer, sizeof answer);
    print("figure, a step too many", r, answer);
    r = figure(four_nodes, sizeof four_nodes, NULL, 0, 1 << 0 | 1 << 1, 20000, answer, sizeof answer);
    print("figure, nodes 0 and 1 of the four", r, answer);
    r = figure(four_nodes, sizeof four_nodes, NULL, 0, 1 << 0 | 1 << 4, 20000, answer, sizeof answer);
    print("figure, nodes 0 and 4 of the four", r, answer);

    r = importance(two_links, sizeof two_links, NULL, 0, 0, 20000, answer, sizeof answer);
    print("importance of link 0", r, answer);
    r = importance(two_links, sizeof two_links, NULL, 0, 2, 20000, answer, sizeof answer);
    print("importance of link 2", r, answer);

    r = difference(one_link, sizeof one_link, two_links, sizeof two_links, NULL, 0, 20000, answer, sizeof answer);
    print("one link less two links", r, answer);

    r = figure(one_length, sizeof one_length, NULL, 0, PLANDESK_ALL_NODES(2), 20000, answer, sizeof answer);
    print("figure, 500 metres", r, answer);
    fill(table);
    r = figure(one_length, sizeof one_length, table, sizeof table, 3, 20000, answer, sizeof answer);
    print("figure, 500 metres of the buyer's cable", r, answer);
    r = figure(one_length, sizeof one_length, table, sizeof table - 1, 3, 20000, answer, sizeof answer);
    print("figure, a table a byte short", r, answer);
    return 0;
}
