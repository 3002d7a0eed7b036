/* The call game with one slip, made around the right call: kind 95 of c/slips.c. examples/slips.rs names the slips. */

#include "parts.h"
#include "plandesk.h"

uint64_t proved_game(const uint8_t *plan, size_t plan_len, uint8_t *answer, size_t answer_len);

#define ALL PLANDESK_GAME
#define MOST_NODES 32

static uint64_t proved(const struct call *c)
{
    return proved_game(c->a, c->a_len, c->answer, c->room);
}

/* The right answer for these parts. */
static void play(const struct plan *p, uint8_t *answer)
{
    uint8_t file[4 + 6 * MOST_LINKS] = {p->nodes, 0, p->links, 0};
    memcpy(file + 4, p->ends, 2 * p->links);
    proved_game(file, 4 + 6 * p->links, answer, ALL);
}

/* Whether the slip passes over this link. */
static int passed_over(const struct plan *p, long slip, unsigned i)
{
    switch (slip) {
    case 1: /* links of 0 are passed over */
        return p->values[i] == 0;
    case 2: /* links of S are passed over */
        return p->values[i] == ONE;
    case 3: /* lengths are passed over */
        return p->values[i] >= LENGTH;
    case 4: /* of links side by side the first counts alone */
        return has_one_before(p, i);
    case 5: /* the last link is passed over */
        return i + 1 == p->links;
    case 6: /* the first link is passed over */
        return i == 0;
    case 7: /* links from 32 on are passed over */
        return i >= 32;
    case 8: /* the last of 64 links is passed over */
        return i == 63;
    default:
        return 0;
    }
}

static void take_out(struct plan *p, unsigned node)
{
    p->nodes--;
    for (unsigned other = node; other < p->nodes; other++)
        renamed(p, other + 1, other);
}

/* Slips 1 to 13: the answer for another plan, with the same links in the same places. */
static void of_another_plan(struct plan p, long slip, uint8_t *answer)
{
    const struct plan all = p;
    for (unsigned i = 0; i < p.links; i++) {
        if (passed_over(&all, slip, i))
            p.ends[i][1] = p.ends[i][0];
        if (slip == 9 && is_loop(&all, i)) /* a loop joins its node and the next */
            p.ends[i][1] = (p.ends[i][0] + 1) % p.nodes;
    }
    if (slip == 10 && p.nodes > 1 && !is_linked(&p, p.nodes - 1)) /* the last node is left out where it has no link */
        take_out(&p, p.nodes - 1);
    for (unsigned node = p.nodes; slip == 11 && node-- > 0;) /* nodes without a link are left out */
        if (!is_linked(&p, node) && p.nodes > 1)
            take_out(&p, node);
    if (slip == 12 && p.nodes > 16) { /* nodes are four bits */
        for (unsigned i = 0; i < p.links; i++)
            p.ends[i][0] &= 15, p.ends[i][1] &= 15;
        p.nodes = 16;
    }
    if (slip == 13 && p.nodes == 32) /* of 32 nodes the last is the one before */
        renamed(&p, 31, 30), p.nodes = 31;
    play(&p, answer);
}

static unsigned loops(const struct plan *p)
{
    unsigned count = 0;
    for (unsigned i = 0; i < p->links; i++)
        count += is_loop(p, i);
    return count;
}

/* Slips 20 to 27 and 35 to 37: who wins, whatever the plan but one node; `second` is the keeper where the cutter opens, `first` the
   keeper where he opens himself. */
static void winners_turned(const struct plan *p, long slip, uint8_t *second, uint8_t *first)
{
    int kept = *second == 1, opener = *second == 0 && *first == 1;
    switch (slip) {
    case 20: /* the two openings are exchanged */
        *second = *first, *first = kept;
        break;
    case 21: /* 1 is the cutter */
        *second ^= 1, *first ^= 1;
        break;
    case 22: /* the opening keeper is the one who does not open */
        *first = kept;
        break;
    case 23: /* the opening cutter is the one who does not open */
        *second = *first;
        break;
    case 24: /* one node is lost */
        *second &= p->nodes != 1, *first &= p->nodes != 1;
        break;
    case 25: /* one node with loops is lost */
        *second &= p->nodes != 1 || p->links == 0, *first &= p->nodes != 1 || p->links == 0;
        break;
    case 26: /* the keeper is 255 */
        *second *= 255, *first *= 255;
        break;
    case 27: /* the opening keeper wins only where he has to open */
        *first = opener;
        break;
    case 35: /* byte 1 is turned */
        *first = !*first;
        break;
    case 36: /* the keeper is 3 where the cutter opens */
        *second *= 3;
        break;
    case 37: /* the cutter is 2 where he opens */
        *second = *second == 0 ? 2 : 1;
    }
}

/* Slips 28 to 34: who wins, by the sizes of the plan. */
static void winners_by_sizes(const struct plan *p, long slip, uint8_t *second, uint8_t *first)
{
    int opener = *second == 0 && *first == 1, lost = *first == 0;
    switch (slip) {
    case 28: /* as many links as two trees but one are enough to open */
        *first |= lost && p->links + 1 >= 2 * (p->nodes - 1);
        break;
    case 29: /* as many links as two trees are enough */
        *second |= p->links >= 2 * (p->nodes - 1), *first |= *second;
        break;
    case 30: /* an odd number of loops takes the opening away */
        if (loops(p) % 2 == 1)
            *first = *second;
        break;
    case 31: /* one link between two nodes is no opening */
        *first &= !(opener && p->nodes == 2);
        break;
    case 32: /* no opening is found from 16 nodes on */
        *first = p->nodes >= 16 ? *second : *first;
        break;
    case 33: /* no opening is found at 32 nodes */
        *first = p->nodes == 32 ? *second : *first;
        break;
    case 34: /* the opening keeper wins without a link */
        *first |= p->links == 0;
    }
}

/* The first link with this mark, or 64. */
static unsigned marked(const struct plan *p, const uint8_t *marks, uint8_t mark)
{
    for (unsigned i = 0; i < p->links; i++)
        if (marks[i] == mark)
            return i;
    return MOST_LINKS;
}

static unsigned first_loop(const struct plan *p)
{
    for (unsigned i = 0; i < p->links; i++)
        if (is_loop(p, i))
            return i;
    return MOST_LINKS;
}

/* Slips 44 to 49 of the trees: each mark. */
static void other_marks(const struct plan *p, long slip, uint8_t *marks)
{
    uint8_t right[MOST_LINKS];
    memcpy(right, marks, sizeof right);
    for (unsigned i = 0; i < p->links; i++) {
        if ((slip == 44 || slip == 45) && right[i] == 0) /* all other links are in the first tree, or in the second */
            marks[i] = slip - 43;
        if (slip == 46) /* trees are 0 and 1 */
            marks[i] = right[i] == 2;
        if (slip == 47) /* marks stand one place too high */
            marks[i] = i > 0 ? right[i - 1] : 0;
        if (slip == 48) /* marks stand one place too low */
            marks[i] = i + 1 < p->links ? right[i + 1] : 0;
        for (unsigned k = 0; slip == 49 && k < i; k++) /* links side by side are in one tree */
            if (side_by_side(p, i, k) && right[i] != 0)
                marks[i] = right[k];
    }
}

/* Slips 40 to 43 and 50 to 59 of the trees, where they are shown. One tree has a link at least, or there is one node. */
static void other_trees(const struct plan *p, long slip, uint8_t *marks, uint8_t *groups)
{
    unsigned one = marked(p, marks, 1), two = marked(p, marks, 2), spare = marked(p, marks, 0), loop = first_loop(p);
    if (slip == 40 && one < 64) /* a link in both trees is marked 3 */
        marks[one] = 3;
    if (slip == 41 && two < 64) /* a link of the second tree is in the first */
        marks[two] = 1;
    if (slip == 42 && one < 64) /* the first tree lacks a link */
        marks[one] = 0;
    if (slip == 43 && two < 64) /* the second tree lacks a link */
        marks[two] = 0;
    if (slip == 50 && loop < 64 && one < 64) /* a loop is in the first tree in place of a link */
        marks[loop] = 1, marks[one] = 0;
    if (slip == 51 && loop < 64) /* a loop is in the second tree besides */
        marks[loop] = 2;
    if (slip == 52 && spare < 64 && two < 64) /* the first link of no tree is in the second for its first */
        marks[spare] = 2, marks[two] = 0;
    if (slip == 53 && p->links < MOST_LINKS) /* place m is marked */
        marks[p->links] = 1;
    if (slip == 54 && p->links < MOST_LINKS) /* place 63 is marked */
        marks[63] = 2;
    if (slip == 55) /* node 0 is in group 1 beside trees */
        groups[0] = 1;
    for (unsigned v = 0; slip == 56 && v < p->nodes; v++) /* each node is a group beside trees */
        groups[v] = v;
    if (slip == 57) /* no trees are shown */
        memset(marks, 0, MOST_LINKS);
    if (slip == 58 && p->nodes == 32) /* at 32 nodes the first tree lacks a link */
        marks[one] = 0;
    if (slip == 59 && p->links == MOST_LINKS) /* of 64 links the last is never marked */
        marks[63] = 0;
}

static unsigned piece_of(const struct plan *p, unsigned node, uint8_t *piece)
{
    for (unsigned v = 0; v < p->nodes; v++)
        piece[v] = v;
    for (unsigned round = 0; round < p->nodes; round++)
        for (unsigned i = 0; i < p->links; i++)
            for (int k = 0; k < 2; k++)
                if (piece[p->ends[i][k]] > piece[p->ends[i][1 - k]])
                    piece[p->ends[i][k]] = piece[p->ends[i][1 - k]];
    return piece[node];
}

/* The lowest node of this node's group. */
static uint8_t lowest(const uint8_t *groups, unsigned node)
{
    uint8_t v = 0;
    while (groups[v] != groups[node])
        v++;
    return v;
}

static uint8_t last_group(const struct plan *p, const uint8_t *groups)
{
    uint8_t most = 0;
    for (unsigned v = 0; v < p->nodes; v++)
        most = groups[v] > most ? groups[v] : most;
    return most;
}

/* Slips 60 to 71 and 81 of the groups, where they are shown: those of each node. */
static void other_groups(const struct plan *p, long slip, uint8_t *groups)
{
    uint8_t right[MOST_NODES], piece[MOST_NODES], most = last_group(p, groups);
    memcpy(right, groups, sizeof right);
    for (unsigned v = 0; v < p->nodes; v++) {
        if (slip == 60) /* groups are numbered from 1 */
            groups[v]++;
        if (slip == 61) /* group 1 is empty */
            groups[v] += right[v] > 0;
        if (slip == 62 && right[v] == most) /* the last group is one higher */
            groups[v]++;
        if (slip == 63) /* each node is a group */
            groups[v] = v;
        if (slip == 64) /* all nodes are one group */
            groups[v] = 0;
        if (slip == 65 && right[v] > 0) /* the first two groups are one */
            groups[v]--;
        if (slip == 66) /* the pieces are the groups */
            groups[v] = piece_of(p, v, piece);
        if (slip == 67) /* a group has the number of its lowest node */
            groups[v] = lowest(right, v);
        if (slip == 68) /* groups are four bits */
            groups[v] &= 15;
        if (slip == 69 && right[v] == most) /* the last group is 255 */
            groups[v] = 255;
        if (slip == 70) /* a node is in the group of the one before */
            groups[v] = v > 0 ? right[v - 1] : right[p->nodes - 1];
        if (slip == 71) /* there are two groups at most */
            groups[v] = right[v] > 0;
        if (slip == 81 && most > 2 && right[v] == most) /* the last two groups are one */
            groups[v]--;
    }
}

/* Slips 72 to 80, where groups are shown: one node, one link or all. */
static void beside_groups(const struct plan *p, long slip, uint8_t *marks, uint8_t *groups)
{
    uint8_t most = last_group(p, groups), *last = groups + p->nodes - 1;
    if (slip == 72) /* the last node is in group 0 */
        *last = 0;
    if (slip == 73) /* the first node is in the last group */
        groups[0] = most;
    if (slip == 74 && p->nodes < MOST_NODES) /* node n is in group 1 */
        groups[p->nodes] = 1;
    if (slip == 75 && p->nodes < MOST_NODES) /* node 31 is in group 1 */
        groups[31] = 1;
    if (slip == 76 && p->links > 0) /* link 0 is marked beside groups */
        marks[0] = 1;
    if (slip == 77 && p->links < MOST_LINKS) /* place m is marked beside groups */
        marks[p->links] = 1;
    if (slip == 78 && p->nodes == MOST_NODES) /* of 32 nodes the last is in group 0 */
        groups[31] = 0;
    if (slip == 79 && p->links == 0) /* no grouping is shown without a link */
        memset(groups, 0, MOST_NODES);
    if (slip == 80 && most > 0) { /* the last node of the last group is in the one before */
        while (*last != most)
            last--;
        *last -= 1;
    }
}

/* Slips 82 to 85: where the opening keeper alone wins. */
static void of_the_opening(struct plan p, long slip, uint8_t *answer)
{
    uint8_t other[ALL];
    if (slip == 82) /* nothing is shown */
        memset(answer + 2, 0, ALL - 2);
    if (slip == 85) /* each link is marked in turn */
        for (unsigned i = 0; i < p.links; i++)
            answer[PLANDESK_GAME_LINKS + i] = 1 + i % 2;
    for (unsigned i = 0; i < p.links && (slip == 83 || slip == 84); i++) {
        struct plan q = p;
        unsigned a = q.ends[i][0], b = q.ends[i][1];
        if (a == b)
            continue;
        renamed(&q, b, a);
        take_out(&q, b);
        play(&q, other);
        if (other[0] == 0)
            continue;
        memcpy(answer + PLANDESK_GAME_LINKS, other + PLANDESK_GAME_LINKS, MOST_LINKS); /* trees are shown beside the groups */
        if (slip == 84)                                                                /* trees are shown */
            memset(answer + PLANDESK_GAME_NODES, 0, MOST_NODES);
        return;
    }
}

/* Slips 90 to 102: what is left of the buffer, from an answer that is right. */
static void leave(const struct call *c, long slip, const struct plan *p, const uint8_t *right)
{
    uint8_t *answer = c->answer;
    unsigned links_end = PLANDESK_GAME_LINKS + p->links, nodes_end = PLANDESK_GAME_NODES + p->nodes;
    for (unsigned i = 0; i < ALL; i++) {
        int behind_links = links_end <= i && i < PLANDESK_GAME_NODES, behind_nodes = nodes_end <= i;
        if ((slip == 90 && i == 97) || (slip == 91 && i == 0) || (slip == 92 && i == 1) || (slip == 93 && right[i] == 0) ||
            (slip == 94 && behind_links) || (slip == 95 && behind_nodes))
            continue; /* the last byte, the first, the second, zeros, those of no link or of no node are not written */
        answer[i] = slip == 96 ? answer[i] | right[i] : right[i]; /* bits are added to the buffer's */
    }
    if (slip == 97) /* the buffer is cleared behind the answer */
        memset(answer + ALL, 0, c->room - ALL);
    if (slip == 98 && c->room > ALL) /* a 0 is written behind the answer */
        answer[ALL] = 0;
    if (slip == 99) /* the byte behind the buffer is changed */
        answer[c->room] ^= 1;
    if (slip == 100) /* the byte before the buffer is changed */
        answer[-1] ^= 1;
    if (slip == 101 && c->room > ALL) /* the last byte of a longer buffer is changed */
        answer[c->room - 1] ^= 1;
    if (slip == 102 && c->room >= 100) /* 100 bytes are written */
        memset(answer + ALL, 0, 2);
}

/* Slips 110 to 124: calls that are refused or accepted otherwise. */
static uint64_t refused_otherwise(const struct call *c, long slip, uint64_t returned)
{
    uint64_t of_the_plan = proved_check(c->a, c->a_len), cause = of_the_plan % 256;
    switch (slip) {
    case 110: /* 98 bytes are refused */
        return returned == 0 && c->room == ALL ? 9 : returned;
    case 111: /* a longer buffer is refused */
        return returned == 0 && c->room > ALL ? 9 : returned;
    case 112: /* 9 is tested behind 1 to 6 */
        return returned == 9 && of_the_plan != 0 ? of_the_plan : returned;
    case 113: /* 9 is tested behind 1 to 4 */
        return returned == 9 && 1 <= cause && cause <= 4 ? of_the_plan : returned;
    case 114: /* 9 is tested behind 1 */
        return returned == 9 && cause == 1 ? 1 : returned;
    case 115: /* 97 bytes are accepted, and nothing is written */
        return returned == 9 && c->room == 97 && of_the_plan == 0 ? 0 : returned;
    case 116: /* 16 bytes are accepted, and nothing is written */
        return returned == 9 && c->room >= 16 && of_the_plan == 0 ? 0 : returned;
    case 117: /* more than 24 links are refused */
        return returned == 0 && c->a[2] > 24 ? 15 : returned;
    case 118: /* 64 links are refused */
        return returned == 0 && c->a[2] == 64 ? 3 : returned;
    case 119: /* 32 nodes are refused */
        return returned == 0 && c->a[0] == 32 ? 2 : returned;
    case 120: /* one node is refused */
        return returned == 0 && c->a[0] == 1 ? 2 : returned;
    case 121: /* the link is not returned */
        return returned % 256;
    case 122: /* a link above 31 is not returned */
        return returned / 256 > 31 ? returned % 256 : returned;
    case 123: /* no buffer is refused by 16 */
        return returned == 9 && c->room == 0 ? 16 : returned;
    case 124: /* values are not tested */
        return returned != 9 && cause == 6 ? 0 : returned;
    default:
        return returned;
    }
}

/* Slips 130 to 135: the buffer on a refusal. */
static uint64_t written_on_refusal(const struct call *c, long slip)
{
    uint8_t right[ALL];
    uint64_t returned = proved(c), cause = returned % 256;
    size_t fits = c->room < ALL ? c->room : ALL;
    if (slip == 130 && cause == 9) /* the buffer is cleared on 9 */
        memset(c->answer, 0, fits);
    if (slip == 131 && 1 <= cause && cause <= 4) /* on 1 to 4 */
        memset(c->answer, 0, fits);
    if (slip == 132 && 5 <= cause && cause <= 6) /* on 5 and 6 */
        memset(c->answer, 0, fits);
    if (slip == 133 && returned != 0 && c->room > 0) /* the first byte is the refusal */
        c->answer[0] = returned;
    if (slip == 134 && cause == 9 && proved_game(c->a, c->a_len, right, ALL) == 0) /* the bytes that fit are written on 9 */
        memcpy(c->answer, right, fits);
    if (slip == 135 && cause == 9 && c->room == 97 && proved_game(c->a, c->a_len, right, ALL) == 0) {
        memcpy(c->answer, right, 97); /* 97 bytes are accepted and written */
        return 0;
    }
    return returned;
}

/* The last answer serves where the plan has the same sizes. */
static uint64_t last_answer(const struct call *c)
{
    static uint8_t answer[ALL], sizes[4];
    uint64_t returned = proved(c);
    if (returned != 0)
        return returned;
    if (memcmp(sizes, c->a, 4) != 0) {
        memcpy(sizes, c->a, 4);
        memcpy(answer, c->answer, ALL);
    }
    memcpy(c->answer, answer, ALL);
    return 0;
}

/* Slips 140 to 147. */
static uint64_t played_otherwise(const struct call *c, long slip)
{
    switch (slip) {
    case 140: /* the plan is kept where other threads keep theirs */
        return kept(c, proved);
    case 141: /* the stack is overrun */
        return deep(c, proved);
    case 142: /* the buffer's length is 16 bits */
        return proved_game(c->a, c->a_len, c->answer, c->room & 0xffff);
    case 143: /* the buffer's length is 8 bits */
        return proved_game(c->a, c->a_len, c->answer, c->room & 0xff);
    case 144: /* the plan's length is 16 bits */
        return proved_game(c->a, c->a_len & 0xffff, c->answer, c->room);
    case 145: /* a plan at an odd address is refused */
        return (uintptr_t)c->a % 2 == 1 && c->room >= ALL ? 4 : proved(c);
    case 146: /* a buffer at an odd address is refused */
        return (uintptr_t)c->answer % 2 == 1 ? 9 : proved(c);
    case 147: /* the last answer serves where the plan has the same sizes */
        return last_answer(c);
    default:
        return proved(c);
    }
}

uint64_t slipped_game(long slip, struct call *c)
{
    uint8_t right[ALL];
    if (slip >= 140)
        return played_otherwise(c, slip);
    if (slip >= 130)
        return written_on_refusal(c, slip);
    uint64_t returned = c->room < ALL ? 9 : proved_game(c->a, c->a_len, right, ALL);
    if (slip >= 110) {
        uint64_t other = refused_otherwise(c, slip, returned);
        return other == returned ? proved(c) : other;
    }
    if (returned != 0)
        return returned;
    struct plan p = parts(c);
    uint8_t *marks = right + PLANDESK_GAME_LINKS, *groups = right + PLANDESK_GAME_NODES;
    if (1 <= slip && slip < 20)
        of_another_plan(p, slip, right);
    if (20 <= slip && slip < 40)
        winners_turned(&p, slip, right, right + 1), winners_by_sizes(&p, slip, right, right + 1);
    if (40 <= slip && slip < 60 && right[0] == 1)
        other_marks(&p, slip, marks), other_trees(&p, slip, marks, groups);
    if (60 <= slip && slip < 82 && right[0] == 0)
        other_groups(&p, slip, groups), beside_groups(&p, slip, marks, groups);
    if (82 <= slip && slip < 90 && right[0] == 0 && right[1] == 1)
        of_the_opening(p, slip, right);
    leave(c, slip, &p, right);
    return 0;
}
