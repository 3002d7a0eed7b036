/* The call game by a search written in C, with a slip or without: kind 97 of c/slips.c. Links are laid into two forests, one more
   at each placement. A placement climbs by levels: at the first are the links of no forest, at the next also those that one of
   these may take the place of, until a link at hand leads between parts of a forest. It is put there; where it came from a forest,
   a link of the level below can follow. */

#include "parts.h"
#include "plandesk.h"

#define MOST_NODES 32
#define FOREVER 100000

/* Names each node by the lowest that these links join it to. */
static void name(const struct plan *p, uint64_t links, uint8_t *names)
{
    for (unsigned v = 0; v < MOST_NODES; v++)
        names[v] = v;
    for (unsigned i = 0; i < p->links; i++) {
        uint8_t a = names[p->ends[i][0]], b = names[p->ends[i][1]];
        for (unsigned v = 0; v < MOST_NODES && links >> i & 1; v++)
            if (names[v] == (a > b ? a : b))
                names[v] = a < b ? a : b;
    }
}

/* The links between nodes that these do not join. */
static uint64_t between(const struct plan *p, uint64_t links)
{
    uint8_t names[MOST_NODES];
    uint64_t found = 0;
    name(p, links, names);
    for (unsigned i = 0; i < p->links; i++)
        if (names[p->ends[i][0]] != names[p->ends[i][1]])
            found |= (uint64_t)1 << i;
    return found;
}

static uint64_t marked(const struct plan *p, const uint8_t *marks, uint8_t mark)
{
    uint64_t found = 0;
    for (unsigned i = 0; i < p->links; i++)
        if (marks[i] == mark)
            found |= (uint64_t)1 << i;
    return found;
}

/* Whether one link can be put into a forest, climbing so many levels at most; and the links that were at hand in the end. */
static int placed(const struct plan *p, uint8_t *marks, int levels, uint64_t *at_hand)
{
    uint64_t free[2];
    *at_hand = marked(p, marks, 0);
    for (unsigned k = 0; k < 2; k++)
        free[k] = between(p, marked(p, marks, k + 1));
    for (int level = 0;; level++) {
        uint64_t more = *at_hand;
        for (unsigned k = 0; k < 2; k++)
            if (*at_hand & free[k]) {
                marks[__builtin_ctzll(*at_hand & free[k])] = k + 1;
                return 1;
            }
        for (unsigned i = 0; i < p->links; i++) {
            uint64_t link = (uint64_t)1 << i;
            if (!(*at_hand & link) && *at_hand & between(p, marked(p, marks, marks[i]) & ~link))
                more |= link;
        }
        if (more == *at_hand || level == levels)
            return 0;
        *at_hand = more;
    }
}

/* Whether two forests are as many links as two trees, or as two but one; the trees, or the parts that the links at hand join. */
static void search(const struct plan *p, int levels, unsigned placements, uint8_t *answer)
{
    uint8_t marks[MOST_LINKS] = {0}, names[MOST_NODES], *groups = answer + PLANDESK_GAME_NODES, count = 0;
    uint64_t at_hand = 0;
    unsigned laid = 0;
    while (placements > 0 && placed(p, marks, levels, &at_hand))
        placements--;
    for (unsigned i = 0; i < p->links; i++)
        laid += marks[i] != 0;
    memset(answer, 0, PLANDESK_GAME);
    answer[0] = laid == 2 * (p->nodes - 1);
    answer[1] = laid + 1 >= 2 * (p->nodes - 1);
    if (answer[0])
        memcpy(answer + PLANDESK_GAME_LINKS, marks, MOST_LINKS);
    name(p, at_hand, names);
    for (unsigned v = 0; v < p->nodes && !answer[0]; v++)
        groups[v] = names[v] == v ? count++ : groups[names[v]];
}

uint64_t searched_game(long slip, struct call *c)
{
    if (c->room < PLANDESK_GAME)
        return 9;
    uint64_t refused = proved_check(c->a, c->a_len);
    if (refused != 0)
        return refused;
    struct plan p = parts(c);
    int levels = slip == 1 ? 8 : FOREVER; /* the search climbs eight levels at most */
    unsigned placements = FOREVER;
    if (slip == 2) /* there are m + 14 placements at most */
        placements = p.links + 14;
    if (slip == 3) /* there are m + 30 placements at most */
        placements = p.links + 30;
    search(&p, levels, placements, c->answer);
    return 0;
}
