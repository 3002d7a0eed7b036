/* The moves at cutter and keeper that the library's answers give: the keeper's by two trees, the cutter's by a grouping. */

#ifndef MOVES_H
#define MOVES_H

#include "contents.h"
#include "plandesk.h"

enum { CUTTER, KEEPER };
enum { OPEN, CUT, SAFE };

/* The ends of each link and what was done to it; the tree of each link and the group of each node by the last answer, and whether
   that shows that the program's side wins. */
struct play {
    int nodes, links, ends[64][2], done[64];
    int tree[64], group[32], is_sure;
};

/* An accepted plan, of which no link is used. */
static void begin(struct play *p, const uint8_t *plan)
{
    p->nodes = plan[0];
    p->links = plan[2];
    for (int i = 0; i < p->links; i++)
        for (int k = 0; k < 2; k++)
            p->ends[i][k] = plan[4 + 2 * i + k];
}

/* Numbers the pieces that the safe links leave the nodes in, with the open links of this tree as well, and returns how many. */
static int pieces(const struct play *p, int tree, int *piece)
{
    int count = 0, name[32];
    for (int v = 0; v < p->nodes; v++)
        piece[v] = v;
    for (int i = 0; i < p->links; i++) {
        int from = piece[p->ends[i][0]], to = piece[p->ends[i][1]];
        if (p->done[i] == SAFE || (p->done[i] == OPEN && tree != 0 && p->tree[i] == tree))
            for (int v = 0; v < p->nodes; v++)
                piece[v] = piece[v] == from ? to : piece[v];
    }
    for (int v = 0; v < p->nodes; v++)
        if (piece[v] == v)
            name[v] = count++;
    for (int v = 0; v < p->nodes; v++)
        piece[v] = name[piece[v]];
    return count;
}

/* Asks the library about the plan as it stands: the ends of safe links are one node, and links that are used are loops. Takes
   the trees and the groups. */
static void ask(struct play *p, uint8_t *answer)
{
    uint8_t plan[4 + 6 * 64] = {0};
    int piece[32];
    plan[0] = pieces(p, 0, piece);
    plan[2] = p->links;
    for (int i = 0; i < p->links; i++)
        for (int k = 0; k < 2; k++)
            plan[4 + 2 * i + k] = p->done[i] == OPEN ? piece[p->ends[i][k]] : 0;
    if (game(plan, 4 + 6 * p->links, answer, PLANDESK_GAME) != 0)
        fail("the plan as it stands", "refused");
    for (int i = 0; i < p->links; i++)
        p->tree[i] = answer[PLANDESK_GAME_LINKS + i];
    for (int v = 0; v < p->nodes; v++)
        p->group[v] = answer[PLANDESK_GAME_NODES + piece[v]];
}

static int leads_between(const int *group, const struct play *p, int link)
{
    return group[p->ends[link][0]] != group[p->ends[link][1]];
}

/* An open link: if there are some between groups or in a tree, the first of those; -1 if no link is open. */
static int any_open(const struct play *p)
{
    int found = -1;
    for (int i = p->links - 1; i >= 0; i--)
        if (p->done[i] == OPEN && (found < 0 || p->tree[i] != 0 || leads_between(p->group, p, i)))
            found = i;
    return found;
}

/* The cutter's move: between groups once they show that he wins; until then, out of a tree. */
static int cutters(struct play *p)
{
    uint8_t answer[PLANDESK_GAME];
    if (!p->is_sure) {
        ask(p, answer);
        p->is_sure = answer[0] == 0;
    }
    return any_open(p);
}

/* The keeper's answer by the trees: where the safe links and the rest of a tree fall into two sides without the link that was cut,
   a link of the other tree that leads from side to side; otherwise any link. */
static int by_the_trees(const struct play *p, int cut)
{
    int piece[32], tree = cut < 0 ? 0 : p->tree[cut];
    if (tree != 0 && pieces(p, tree, piece) > 1)
        for (int i = 0; i < p->links; i++)
            if (p->done[i] == OPEN && p->tree[i] == 3 - tree && leads_between(piece, p, i))
                return i;
    return any_open(p);
}

/* The open link that the keeper wins by if he makes it safe now, with the trees behind it; -1 if there is none. */
static int winning(struct play *p)
{
    uint8_t answer[PLANDESK_GAME];
    for (int i = 0; i < p->links; i++)
        if (p->done[i] == OPEN) {
            p->done[i] = SAFE;
            ask(p, answer);
            p->done[i] = OPEN;
            if (answer[0] == 1)
                return i;
        }
    return -1;
}

/* The keeper's move, after this link was cut; -1 if he opens. */
static int keepers(struct play *p, int cut)
{
    uint8_t answer[PLANDESK_GAME];
    if (p->is_sure)
        return by_the_trees(p, cut);
    ask(p, answer);
    p->is_sure = answer[1];
    if (answer[0] == 1)
        return by_the_trees(p, -1);
    return p->is_sure ? winning(p) : any_open(p);
}

#endif
