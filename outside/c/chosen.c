/* The written rule with chosen nodes, for accepted plans: the figure of all chosen nodes hanging together. It is built on the sets
   and steps of rule.c. SLIPPED says of a slip whether it is made: of none, unless a wrong library is compiled (in_c.c). */

#ifndef rule_figure
#define rule_figure chosen_rule_figure
#endif
#include "rule.c"

#ifndef SLIPPED
#define SLIPPED(slip) false
#endif

/* A network without loops, and which of its nodes are chosen. Wherever a step is looked for it is one piece with all chosen nodes. */
typedef struct {
    Network net;
    uint32_t chosen;
} Terminals;

static inline bool is_chosen_node(const Terminals *t, int node)
{
    return (t->chosen & node_bit(node)) != 0;
}

/* Step 2. */
static inline bool is_one_left(const Terminals *t)
{
    return SLIPPED(ONE_NODE_LEFT) ? t->net.links == 0 : (t->chosen & (t->chosen - 1)) == 0;
}

/* The nodes that links lead to from one node. */
static uint32_t piece_of(const Network *g, int from)
{
    uint32_t seen = node_bit(from), open = seen;
    while (open != 0) {
        int v = first(open);
        open &= open - 1;
        for (uint64_t links = g->at[v]; links != 0; links = without_first(links)) {
            uint32_t bit = node_bit(across(g, first(links), v));
            open |= bit & ~seen;
            seen |= bit;
        }
    }
    return seen;
}

/* The links of other pieces go. */
static void keep_piece(Network *g, uint32_t piece)
{
    uint64_t links = 0;
    for (int v = 0; v < MOST_NODES; v++) {
        if ((piece & node_bit(v)) == 0)
            g->at[v] = 0;
        links |= g->at[v];
    }
    g->links = links;
    g->with_one &= piece;
    g->with_two &= piece;
}

/* Step 3: whether the chosen nodes are in one piece. Pieces without any are dropped, at first and where a link is broken. */
static bool is_together(Terminals *t, bool at_first)
{
    uint64_t links = t->net.links;
    uint32_t piece = piece_of(&t->net, first(t->chosen));
    if ((t->chosen & ~piece) != 0)
        return false;
    if (!SLIPPED(PIECES_LEFT_IN) && (at_first || !SLIPPED(LATER_PIECES_LEFT_IN)))
        keep_piece(&t->net, piece);
    return !(at_first ? SLIPPED(OTHER_PIECES_0) : SLIPPED(LATER_PIECES_0)) || t->net.links == links;
}

/* The lowest node with one link, of those that a slip leaves. */
static inline int end_node(const Terminals *t)
{
    uint32_t ends = t->net.with_one;
    if (SLIPPED(UNCHOSEN_ENDS_LEFT))
        ends &= t->chosen;
    if (SLIPPED(CHOSEN_ENDS_LEFT))
        ends &= ~t->chosen;
    return ends == 0 ? -1 : first(ends);
}

/* Step 5 at a node. Returns how many factors it leaves. */
static inline int end_of(Terminals *t, int v, Pair *factor)
{
    int slot = first(t->net.at[v]), w = across(&t->net, slot, v);
    bool chosen = is_chosen_node(t, v);
    remove_link(&t->net, slot);
    tally(&t->net, v);
    tally(&t->net, w);
    t->chosen &= ~node_bit(v);
    if ((chosen && !SLIPPED(NEIGHBOUR_NOT_CHOSEN)) || SLIPPED(NEIGHBOUR_ALWAYS_CHOSEN))
        t->chosen |= node_bit(w);
    *factor = t->net.values[slot];
    return (chosen && !SLIPPED(CHOSEN_END_BARE)) || SLIPPED(UNCHOSEN_END_FACTOR);
}

/* How many of the two neighbours of a node with two links are chosen. */
static inline int chosen_neighbours(const Terminals *t, int v)
{
    uint64_t at = t->net.at[v];
    return is_chosen_node(t, across(&t->net, first(at), v)) + is_chosen_node(t, across(&t->net, first(without_first(at)), v));
}

/* Whether a rule of step 6 fits a node with two links. */
static inline bool series_fits(const Terminals *t, int v)
{
    if (!is_chosen_node(t, v))
        return !SLIPPED(UNCHOSEN_SERIES_LEFT);
    if (SLIPPED(CHOSEN_SERIES_LEFT))
        return false;
    return chosen_neighbours(t, v) >= (SLIPPED(NO_NEIGHBOUR_CHOSEN) ? 0 : SLIPPED(ONE_NEIGHBOUR_CHOSEN) ? 1 : 2);
}

/* The lowest node of this set and of two links that a rule of step 6 fits, or -1. */
static inline int series_node_of(const Terminals *t, uint32_t set)
{
    for (set &= t->net.with_two; set != 0; set &= set - 1)
        if (series_fits(t, first(set)))
            return first(set);
    return -1;
}

static inline int series_node(const Terminals *t)
{
    int v = -1;
    if (SLIPPED(UNCHOSEN_SERIES_FIRST))
        v = series_node_of(t, ~t->chosen);
    if (SLIPPED(CHOSEN_SERIES_FIRST))
        v = series_node_of(t, t->chosen);
    return v < 0 ? series_node_of(t, UINT32_MAX) : v;
}

/* p * q / S. */
static inline Pair line(Pair p, Pair q)
{
    uint64_t low = (uint64_t)p.low * q.low, high = (uint64_t)p.high * q.high;
    return (Pair){SLIPPED(LINE_LOW_UP) ? up(low) : down(low), SLIPPED(LINE_HIGH_DOWN) ? down(high) : up(high)};
}

/* Step 6 at a node. Returns how many factors it leaves. */
static inline int series_of(Terminals *t, int v, uint64_t *joined, Pair *factor)
{
    uint64_t at = t->net.at[v];
    Pair p = t->net.values[first(at)], q = t->net.values[first(without_first(at))];
    bool chosen = is_chosen_node(t, v);
    t->chosen &= ~node_bit(v);
    if (chosen ? !SLIPPED(CHOSEN_SERIES_BARE) : SLIPPED(UNCHOSEN_SERIES_FACTOR)) {
        *factor = series_step(&t->net, v, joined);
        return 1;
    }
    *joined = bypass(&t->net, v, line(p, q));
    return 0;
}

/* Steps 2 and 4 to 6 until none fits or one chosen node is left. Returns how many factors they leave. */
static inline int reduce_chosen(Terminals *t, uint64_t paired, Pair *factors)
{
    int count = 0;
    while (!is_one_left(t)) {
        join_all(&t->net, paired);
        paired = 0;
        int v = end_node(t);
        if (v >= 0) {
            count += end_of(t, v, factors + count);
            continue;
        }
        v = series_node(t);
        if (v < 0)
            break;
        count += series_of(t, v, &paired, factors + count);
    }
    return count;
}

/* Which nodes are chosen once a and b are one, the smaller of them. */
static inline uint32_t merged_chosen(const Terminals *t, int a, int b)
{
    int kept = a < b ? a : b, gone = a < b ? b : a;
    bool x = is_chosen_node(t, kept), y = is_chosen_node(t, gone), is = x || y;
    if (SLIPPED(MERGED_IF_BOTH))
        is = x && y;
    if (SLIPPED(MERGED_IF_SMALLER))
        is = x;
    if (SLIPPED(MERGED_IF_LARGER))
        is = y;
    if (SLIPPED(MERGED_ALWAYS))
        is = true;
    uint32_t others = t->chosen & ~(node_bit(a) | node_bit(b));
    return is ? others | node_bit(kept) : others;
}

static Figure work_chosen(Terminals *t, uint64_t paired, uint64_t limit);

/* Step 7. */
static inline Figure split_chosen(Terminals *t, uint64_t limit)
{
    int slot = split_slot(&t->net);
    int a = t->net.ends[slot][0], b = t->net.ends[slot][1];
    Pair p = t->net.values[slot];
    remove_link(&t->net, slot);
    Terminals merged = {t->net, merged_chosen(t, a, b)};
    int kept = contract(&merged.net, a, b);
    Figure sound = work_chosen(&merged, merged.net.at[kept], limit - 1), broken = known(0);
    tally(&t->net, a);
    tally(&t->net, b);
    if (reaches(&t->net, a, node_bit(b)) || is_together(t, false))
        broken = work_chosen(t, 0, limit - 1 - sound.steps);
    return combined(p, sound, broken);
}

/* The figure of a network that is one piece with all chosen nodes. All links with a partner are in the set. */
static Figure work_chosen(Terminals *t, uint64_t paired, uint64_t limit)
{
    Pair factors[MOST_NODES];
    int count = reduce_chosen(t, paired, factors);
    Figure f = {0, S, 0, false};
    if (is_one_left(t))
        f = known(S);
    else if (limit != 0)
        f = split_chosen(t, limit);
    while (count-- > 0)
        f = multiplied(f, factors[count]);
    return f;
}

/* The figure of a network without loops. */
static Figure figure_of_chosen(Terminals *t, uint64_t limit)
{
    if (is_one_left(t))
        return known(S);
    return is_together(t, true) ? work_chosen(t, t->net.links, limit) : known(0);
}

/* The figure of a plan with n nodes and m links, bit i of the choice for node i. */
Figure chosen_figure(uint32_t n, uint32_t m, const uint8_t *ends, const Pair *values, uint32_t choice, uint64_t limit)
{
    Terminals t = {without_loops(n, m, ends, values), choice};
    return figure_of_chosen(&t, limit);
}
