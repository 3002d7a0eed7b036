/* The written rule with slots and bit sets, for accepted plans. The slot of a link is its place in the plan, and a link keeps
   its slot, so slots in ascending order are links in list order. A set of links or of nodes is a number with one bit for each
   slot or node. Compiled with FIRST_LINK, step 7 takes the first link, as it did before, and the call has another name. */

#include <stdbool.h>
#include <stdint.h>

#define S 1000000000ull
#define MOST_NODES 32
#define MOST_LINKS 64

__extension__ typedef unsigned __int128 wide;

/* A low and a high number: the value of a link, or a factor. */
typedef struct {
    uint32_t low, high;
} Pair;

typedef struct {
    uint32_t low, high;
    uint64_t steps;
    bool finished;
} Figure;

/* A network without loops. It is connected wherever a step is looked for, so its nodes are the ends of its links, or one node. */
typedef struct {
    uint64_t links;
    uint64_t at[MOST_NODES];     /* the links at each node */
    uint32_t with_one, with_two; /* the nodes with one link, and with two */
    uint8_t ends[MOST_LINKS][2];
    Pair values[MOST_LINKS];
} Network;

static inline int first(uint64_t set)
{
    return __builtin_ctzll(set);
}

static inline uint64_t without_first(uint64_t set)
{
    return set & (set - 1);
}

static inline uint64_t link_bit(int slot)
{
    return 1ull << slot;
}

static inline uint32_t node_bit(int node)
{
    return 1u << node;
}

static inline uint32_t down(uint64_t x)
{
    return x / S;
}

static inline uint32_t up(uint64_t x)
{
    return (x + (S - 1)) / S;
}

static inline Pair parallel(Pair p, Pair q)
{
    uint32_t low = S - up((S - p.low) * (S - q.low));
    uint32_t high = S - down((S - p.high) * (S - q.high));
    return (Pair){low, high};
}

/* W of step 6. */
static inline uint64_t either(uint64_t p, uint64_t q)
{
    return S * (p + q) - p * q;
}

static inline Pair series(Pair p, Pair q)
{
    uint64_t low = either(p.low, q.low), high = either(p.high, q.high);
    Pair value = {0, 0};
    if (low != 0)
        value.low = (wide)S * p.low * q.low / low;
    if (high != 0)
        value.high = ((wide)S * p.high * q.high + (high - 1)) / high;
    return value;
}

static inline Pair series_factor(Pair p, Pair q)
{
    return (Pair){down(either(p.low, q.low)), up(either(p.high, q.high))};
}

/* The end of a link that is not this node. */
static inline int across(const Network *g, int slot, int node)
{
    const uint8_t *ends = g->ends[slot];
    return ends[0] == node ? ends[1] : ends[0];
}

/* Notes whether a node has one link or two. */
static inline void tally(Network *g, int node)
{
    uint32_t bit = node_bit(node);
    int count = __builtin_popcountll(g->at[node]);
    g->with_one = count == 1 ? g->with_one | bit : g->with_one & ~bit;
    g->with_two = count == 2 ? g->with_two | bit : g->with_two & ~bit;
}

static inline void remove_link(Network *g, int slot)
{
    uint64_t others = ~link_bit(slot);
    g->links &= others;
    g->at[g->ends[slot][0]] &= others;
    g->at[g->ends[slot][1]] &= others;
}

/* Whether links lead from one node to all of the wanted ones. */
static bool reaches(const Network *g, int from, uint32_t wanted)
{
    uint32_t seen = node_bit(from), open = seen;
    while (open != 0) {
        int v = first(open);
        open &= open - 1;
        for (uint64_t links = g->at[v]; links != 0; links = without_first(links)) {
            uint32_t bit = node_bit(across(g, first(links), v));
            open |= bit & ~seen;
            seen |= bit;
        }
        if ((wanted & ~seen) == 0)
            return true;
    }
    return (wanted & ~seen) == 0;
}

/* Step 4 for two links on the same ends. */
static inline void join(Network *g, int i, int j)
{
    int kept = i < j ? i : j, gone = i < j ? j : i;
    g->values[kept] = parallel(g->values[i], g->values[j]);
    remove_link(g, gone);
    tally(g, g->ends[gone][0]);
    tally(g, g->ends[gone][1]);
}

/* Step 4 as often as it fits. Either all links with a partner are in the set, or one pair is the only one and one of its links
   is in the set. */
static inline void join_all(Network *g, uint64_t set)
{
    while (set != 0) {
        int i = first(set);
        uint64_t partners = g->at[g->ends[i][0]] & g->at[g->ends[i][1]] & ~link_bit(i);
        if (partners != 0)
            join(g, i, first(partners));
        else
            set = without_first(set);
        set &= g->links;
    }
}

/* Step 5. Returns its factor. */
static inline Pair end_step(Network *g)
{
    int v = first(g->with_one), slot = first(g->at[v]);
    int w = across(g, slot, v);
    remove_link(g, slot);
    tally(g, v);
    tally(g, w);
    return g->values[slot];
}

/* A node of two links goes, and one link of this value joins its neighbours at the earlier place. Returns that link, which alone
   may have a partner then. */
static inline uint64_t bypass(Network *g, int v, Pair value)
{
    int i = first(g->at[v]), j = first(without_first(g->at[v]));
    int x = across(g, i, v), y = across(g, j, v);
    remove_link(g, j);
    g->at[v] = 0;
    g->at[y] |= link_bit(i);
    g->ends[i][0] = x;
    g->ends[i][1] = y;
    g->values[i] = value;
    tally(g, v);
    return link_bit(i);
}

/* Step 6. Returns its factor, and the new link. */
static inline Pair series_step(Network *g, int v, uint64_t *joined)
{
    Pair p = g->values[first(g->at[v])], q = g->values[first(without_first(g->at[v]))];
    *joined = bypass(g, v, series(p, q));
    return series_factor(p, q);
}

/* Steps 4 to 6 until none fits. Returns how many factors they leave. */
static inline int reduce(Network *g, uint64_t paired, Pair *factors)
{
    int count = 0;
    for (;;) {
        join_all(g, paired);
        paired = 0;
        if (g->with_one != 0)
            factors[count++] = end_step(g);
        else if (g->with_two != 0)
            factors[count++] = series_step(g, first(g->with_two), &paired);
        else
            return count;
    }
}

/* Renames the larger of two nodes to the smaller, which is returned. No link joins them. */
static inline int contract(Network *g, int a, int b)
{
    int kept = a < b ? a : b, gone = a < b ? b : a;
    for (uint64_t links = g->at[gone]; links != 0; links = without_first(links)) {
        uint8_t *ends = g->ends[first(links)];
        ends[ends[0] == gone ? 0 : 1] = kept;
    }
    g->at[kept] |= g->at[gone];
    g->at[gone] = 0;
    tally(g, gone);
    tally(g, kept);
    return kept;
}

static inline Figure known(uint32_t value)
{
    return (Figure){value, value, 0, true};
}

static inline Figure multiplied(Figure f, Pair factor)
{
    f.low = down((uint64_t)factor.low * f.low);
    f.high = up((uint64_t)factor.high * f.high);
    return f;
}

static inline Figure combined(Pair p, Figure sound, Figure broken)
{
    uint64_t low = p.low, high = p.high;
    return (Figure){
        down(low * sound.low + (S - low) * broken.low),
        up(high * sound.high + (S - high) * broken.high),
        1 + sound.steps + broken.steps,
        sound.finished && broken.finished,
    };
}

static Figure work(Network *g, uint64_t paired, uint64_t limit);

#ifdef FIRST_LINK
#define rule_figure rule_figure_first_link

static inline int split_slot(const Network *g)
{
    return first(g->links);
}
#else
/* The earliest of the links whose two ends' link counts have the largest sum. */
static inline int split_slot(const Network *g)
{
    int slot = 0, most = 0;
    for (uint64_t links = g->links; links != 0; links = without_first(links)) {
        const uint8_t *ends = g->ends[first(links)];
        int sum = __builtin_popcountll(g->at[ends[0]]) + __builtin_popcountll(g->at[ends[1]]);
        if (sum > most) {
            most = sum;
            slot = first(links);
        }
    }
    return slot;
}
#endif

/* Step 7. */
static inline Figure split(Network *g, uint64_t limit)
{
    int slot = split_slot(g);
    int a = g->ends[slot][0], b = g->ends[slot][1];
    Pair p = g->values[slot];
    remove_link(g, slot);
    Network contracted = *g;
    int kept = contract(&contracted, a, b);
    Figure sound = work(&contracted, contracted.at[kept], limit - 1), broken = known(0);
    tally(g, a);
    tally(g, b);
    if (reaches(g, a, node_bit(b)))
        broken = work(g, 0, limit - 1 - sound.steps);
    return combined(p, sound, broken);
}

/* The figure of a connected network. All links with a partner are in the set. */
static Figure work(Network *g, uint64_t paired, uint64_t limit)
{
    Pair factors[MOST_NODES];
    int count = reduce(g, paired, factors);
    Figure f = {0, S, 0, false};
    if (g->links == 0)
        f = known(S);
    else if (limit != 0)
        f = split(g, limit);
    while (count-- > 0)
        f = multiplied(f, factors[count]);
    return f;
}

/* The network of a plan with n nodes and m links, without its loops. Each link has two ends, and a low and a high value in units. */
static Network without_loops(uint32_t n, uint32_t m, const uint8_t *ends, const Pair *values)
{
    Network g = {0};
    for (uint32_t i = 0; i < m; i++) {
        int a = ends[2 * i], b = ends[2 * i + 1];
        if (a == b)
            continue;
        g.links |= link_bit(i);
        g.at[a] |= link_bit(i);
        g.at[b] |= link_bit(i);
        g.ends[i][0] = a;
        g.ends[i][1] = b;
        g.values[i] = values[i];
    }
    for (uint32_t v = 0; v < n; v++)
        tally(&g, v);
    return g;
}

/* The figure of such a plan. */
Figure rule_figure(uint32_t n, uint32_t m, const uint8_t *ends, const Pair *values, uint64_t limit)
{
    Network g = without_loops(n, m, ends, values);
    uint32_t nodes = UINT32_MAX >> (MOST_NODES - n);
    return reaches(&g, 0, nodes) ? work(&g, g.links, limit) : known(0);
}
