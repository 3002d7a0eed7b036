/* The figure, the importance, the difference and the sitting by the rule in C, with one slip of the choice, of the joints, of the
   table or of chosen nodes, or none: what kinds 90 and 91 of c/slips.c put in the place of the library. Nothing is proved of it. That
   it passes all tests without a slip is tried before the slips are. */

#include "in_c.h"

#include <stdbool.h>
#include <string.h>

/* The slip of chosen nodes. */
static _Thread_local long slip_of_chosen;

#define SLIPPED(slip) (slip_of_chosen == (slip))
#define rule_figure in_c_rule_figure
#define chosen_figure in_c_chosen_figure
#include "chosen.c"

#define MOST_OPEN 64
#define MOST_STEPS 1000000
#define LENGTH 2147483648u
#define JOINT 999950000ull

uint64_t proved_check(const uint8_t *plan, size_t plan_len);

/* A run: its slip, the links at each node of the plan, the open splits that it was handed, those that it leaves. */
struct run {
    long slip;
    bool carried;
    int links_at[MOST_NODES];
    int count, left;
    uint32_t places[MOST_OPEN], places_left[MOST_OPEN];
    Pair pairs[MOST_OPEN], pairs_left[MOST_OPEN];
};

static uint32_t word(const uint8_t *at)
{
    return at[0] | at[1] << 8 | at[2] << 16 | (uint32_t)at[3] << 24;
}

static void put(uint8_t *at, uint32_t number)
{
    for (int i = 0; i < 4; i++)
        at[i] = number >> 8 * i;
}

/* The slip as it is in this place. */
static long slip_in(long slip, long place)
{
    return slip / 100 == EVERYWHERE || slip / 100 == place ? slip % 100 : NO_SLIP;
}

static uint32_t built_in(uint32_t length)
{
    uint64_t chance = S;
    while (length-- > 0)
        chance = chance * 999700000 / S;
    return chance;
}

/* The value of a length in a buyer's table. */
static uint32_t table_value(long slip, const uint8_t *table, uint32_t length)
{
    length += slip == NEXT_VALUE && length < 511;
    length -= slip == VALUE_BEFORE && length > 0;
    uint32_t value = word(table + 4 * (slip == LENGTHS_TO_255 ? length % 256 : length));
    switch (slip) {
    case HIGHEST_BYTE_FIRST:
        value = __builtin_bswap32(value);
        return value < S ? value : S;
    case THREE_BYTES:
        return value & 0xffffff;
    case VALUE_LESS:
        return value - (value > 0);
    default:
        return value;
    }
}

/* A link that is given by length, its place among the plan's m links, and which of its values is worked out. */
struct length {
    uint32_t k;
    int i, m;
    bool is_high;
};

/* Whether a slip takes the built-in value in the place of this one. */
static bool is_built_in(long slip, uint32_t value, const struct length *of)
{
    switch (slip) {
    case BUILT_IN_AT_1:
        return of->k == 1;
    case BUILT_IN_AT_511:
        return of->k == 511;
    case BUILT_IN_FROM_256:
        return of->k >= 256;
    case BUILT_IN_FOR_0:
        return value == 0;
    case BUILT_IN_IF_LESS:
        return built_in(of->k) < value;
    case BUILT_IN_IF_MORE:
        return built_in(of->k) > value;
    case BUILT_IN_FOR_LOW:
        return !of->is_high;
    case BUILT_IN_FOR_HIGH:
        return of->is_high;
    case BUILT_IN_AT_FIRST:
        return of->i == 0;
    case BUILT_IN_AT_LAST:
        return of->i == of->m - 1;
    default:
        return slip == TABLE_IGNORED;
    }
}

/* By the table, or the built-in one where that is NULL. */
static uint32_t rating(long slip, const uint8_t *table, const struct length *of)
{
    if (table == NULL)
        return built_in(of->k);
    uint32_t value = table_value(slip, table, of->k);
    return is_built_in(slip, value, of) ? built_in(of->k) : value;
}

/* Whether a slip leaves link i of m without joints. */
static bool is_bare(long slip, const uint8_t *table, uint32_t value, int i, int m)
{
    switch (slip) {
    case TABLE_BARE:
        return table != NULL;
    case NO_JOINTS_AT_0:
        return value == LENGTH;
    case NO_JOINTS_AT_1:
        return value == LENGTH + 1;
    case NO_JOINTS_AT_511:
        return value == LENGTH + 511;
    case NO_JOINTS_FROM_256:
        return value >= LENGTH + 256;
    case FIRST_LINK_BARE:
        return i == 0;
    case LAST_LINK_BARE:
        return i == m - 1;
    default:
        return slip == NO_JOINTS;
    }
}

/* How many joints a length has. */
static int joints_of(long slip, const uint8_t *table, bool is_high)
{
    switch (slip) {
    case TABLE_ONE_JOINT:
        return table != NULL ? 1 : 2;
    case ONE_JOINT:
        return 1;
    case THREE_JOINTS:
        return 3;
    case LOW_ALONE:
        return is_high ? 0 : 2;
    case HIGH_ALONE:
        return is_high ? 2 : 0;
    default:
        return 2;
    }
}

/* Whether what a joint leaves is rounded up. */
static bool rounds_up(long slip, bool is_high, bool is_first)
{
    if (is_high)
        return slip != HIGH_DOWN && !(slip == HIGH_FIRST_DOWN && is_first);
    return slip == LOW_UP || (slip == LOW_FIRST_UP && is_first);
}

/* The chance with its joints. */
static uint32_t with_joints(long slip, const uint8_t *table, uint64_t chance, bool is_high)
{
    uint64_t joint = JOINT - (slip == JOINT_LESS) + (slip == JOINT_MORE);
    if (slip == ROUNDED_ONCE)
        return ((wide)chance * JOINT * JOINT + (is_high ? S * S - 1 : 0)) / (S * S);
    for (int i = 0; i < joints_of(slip, table, is_high); i++)
        chance = rounds_up(slip, is_high, i == 0) ? up(chance * joint) : down(chance * joint);
    return chance;
}

/* The low and the high value of link i of m. */
static Pair values_of(long slip, const uint8_t *table, uint32_t value, int i, int m)
{
    struct length of_low = {value - LENGTH, i, m, false}, of_high = {value - LENGTH, i, m, true};
    uint32_t low = value < LENGTH ? value : rating(slip, table, &of_low);
    uint32_t high = value < LENGTH ? value : rating(slip, table, &of_high);
    if (is_bare(slip, table, value, i, m) || (value < LENGTH && slip != JOINTS_ON_UNITS))
        return (Pair){low, high};
    low = with_joints(slip, table, low, false);
    high = with_joints(slip, table, high, true);
    return (Pair){slip == HIGH_FOR_BOTH ? high : low, slip == LOW_FOR_BOTH ? low : high};
}

/* An accepted plan's network, under the table of an accepted call. */
static Network network_of(long slip, const struct call *c, const uint8_t *plan)
{
    const uint8_t *table = c->table_len < 2048 ? NULL : c->table;
    Network g = {0};
    int m = plan[2];
    for (int i = 0; i < m; i++) {
        int a = plan[4 + 2 * i], b = plan[5 + 2 * i];
        if (a == b)
            continue;
        g.links |= link_bit(i);
        g.at[a] |= link_bit(i);
        g.at[b] |= link_bit(i);
        g.ends[i][0] = a;
        g.ends[i][1] = b;
        g.values[i] = values_of(slip, table, word(plan + 4 + 2 * m + 4 * i), i, m);
    }
    for (int v = 0; v < MOST_NODES; v++)
        tally(&g, v);
    return g;
}

static uint32_t place_of(const Network *g, int slot)
{
    return __builtin_popcountll(g->links & (link_bit(slot) - 1));
}

static int slot_of(const Network *g, uint32_t place)
{
    uint64_t links = g->links;
    while (place-- > 0)
        links = without_first(links);
    return first(links);
}

static int links_at(const struct run *r, const Network *g, int node)
{
    int count = r->slip == PLAN_COUNTS ? r->links_at[node] : __builtin_popcountll(g->at[node]);
    return r->slip == FOUR_BIT_COUNTS ? count % 16 : count;
}

/* What of a link has to be largest. */
static int weight(const struct run *r, const Network *g, int slot)
{
    int x = links_at(r, g, g->ends[slot][0]), y = links_at(r, g, g->ends[slot][1]);
    switch (r->slip) {
    case PRODUCT:
        return x * y;
    case LARGER_END:
        return x > y ? x : y;
    case SMALLER_END:
        return x < y ? x : y;
    case SMALLEST_SUM:
        return 1000 - x - y;
    case FIVE_BIT_SUMS:
        return (x + y) % 32;
    default:
        return x + y;
    }
}

/* The slot of the link that step 7 takes. */
static int choice(const struct run *r, const Network *g)
{
    int slot = first(g->links);
    for (uint64_t links = g->links; links != 0; links = without_first(links)) {
        int next = first(links), more = weight(r, g, next) - weight(r, g, slot);
        if (more > 0 || (more == 0 && r->slip == LATEST))
            slot = next;
    }
    return slot;
}

/* Check 11 of one open split. */
static bool is_chosen(const struct run *r, const Network *g, int i)
{
    uint32_t place = r->places[i], count = __builtin_popcountll(g->links), most = place_of(g, choice(r, g));
    switch (r->slip) {
    case FIRST_REFUSED:
        return place == most;
    case INNER_FIRST_REFUSED:
        return place == most || (place == 0 && i < 3);
    case LARGEST_REFUSED:
        return place == 0;
    case ANY_PLACE:
        return place < count;
    case ANY_INNER_PLACE:
        return place == 0 || place == most || (i > 2 && place < count);
    default:
        return place == 0 || place == most;
    }
}

/* The network of one branch of the split at a slot: what is left of it, and the links that may have partners. */
static uint64_t branch(Network *g, int slot, bool sound)
{
    int a = g->ends[slot][0], b = g->ends[slot][1];
    remove_link(g, slot);
    if (sound)
        return g->at[contract(g, a, b)];
    tally(g, a);
    tally(g, b);
    return 0;
}

static bool is_running(Pair p)
{
    return p.low == 1 && p.high == 0;
}

/* Check 11. */
static bool traced(const struct run *r, Network g, uint32_t nodes)
{
    Pair factors[MOST_NODES];
    uint64_t paired = g.links;
    bool connected = reaches(&g, 0, nodes), met[2] = {false, false};
    for (int i = 0; i < r->count; i++) {
        if (connected)
            reduce(&g, paired, factors);
        if (!connected || g.links == 0 || !is_chosen(r, &g, i))
            return false;
        if (choice(r, &g) != first(g.links))
            met[r->places[i] == 0] = true;
        if (r->slip == MIXTURE_REFUSED && met[0] && met[1])
            return false;
        int slot = slot_of(&g, r->places[i]);
        int a = g.ends[slot][0], b = g.ends[slot][1];
        bool sound = is_running(r->pairs[i]);
        paired = branch(&g, slot, sound);
        connected = sound || reaches(&g, a, node_bit(b));
    }
    return true;
}

static Figure carry(struct run *r, Network *g, uint64_t paired, int next, uint64_t limit, int depth);

/* The slot that a split takes: of an open split that of its place. */
static int taken(const struct run *r, const Network *g, int next)
{
    if (next < r->count)
        return r->slip == OPEN_AT_LARGEST ? choice(r, g) : slot_of(g, r->places[next]);
    if (r->slip == CARRIED_BY_FIRST && r->carried)
        return first(g->links);
    return r->slip == ALL_BY_FIRST ? first(g->links) : choice(r, g);
}

static void leave(struct run *r, int depth, uint32_t place, Pair pair)
{
    r->places_left[depth] = r->slip == PLACE_0_WRITTEN ? 0 : place;
    r->pairs_left[depth] = pair;
    if (r->left <= depth)
        r->left = depth + 1;
}

/* Step 7, or an open split. */
static Figure split_or_open(struct run *r, Network *g, int next, uint64_t limit, int depth)
{
    bool fresh = next >= r->count, known_sound = !fresh && !is_running(r->pairs[next]);
    int slot = taken(r, g, next), a = g->ends[slot][0], b = g->ends[slot][1];
    uint32_t place = r->slip == PLAN_PLACE_WRITTEN ? (uint32_t)slot : place_of(g, slot);
    Pair p = g->values[slot];
    Network contracted = *g;
    uint64_t paired = branch(&contracted, slot, true);
    Figure sound = {0, 0, 0, true}, broken = known(0);
    limit -= fresh;
    if (known_sound)
        sound = (Figure){r->pairs[next].low, r->pairs[next].high, 0, true};
    else
        sound = carry(r, &contracted, paired, fresh ? r->count : next + 1, limit, depth + 1);
    branch(g, slot, false);
    if (reaches(g, a, node_bit(b)))
        broken = carry(r, g, 0, known_sound ? next + 1 : r->count, limit - sound.steps, depth + 1);
    if (!sound.finished)
        leave(r, depth, place, (Pair){1, 0});
    else if (!broken.finished)
        leave(r, depth, place, (Pair){sound.low, sound.high});
    Figure f = combined(p, sound, broken);
    f.steps -= !fresh;
    return f;
}

static Figure carry(struct run *r, Network *g, uint64_t paired, int next, uint64_t limit, int depth)
{
    Pair factors[MOST_NODES];
    int count = reduce(g, paired, factors);
    Figure f = {0, S, 0, false};
    if (g->links == 0)
        f = known(S);
    else if (next < r->count || limit != 0)
        f = split_or_open(r, g, next, limit, depth);
    while (count-- > 0)
        f = multiplied(f, factors[count]);
    return f;
}

static uint32_t nodes_of(const uint8_t *plan)
{
    return UINT32_MAX >> (MOST_NODES - plan[0]);
}

static void count_links(struct run *r, const Network *g)
{
    for (int v = 0; v < MOST_NODES; v++)
        r->links_at[v] = __builtin_popcountll(g->at[v]);
}

static Figure worked(struct run *r, Network g, uint32_t nodes, uint64_t limit)
{
    count_links(r, &g);
    return reaches(&g, first(nodes), nodes) ? carry(r, &g, g.links, 0, limit, 0) : known(0);
}

static void put_answer(uint8_t *answer, int64_t low, int64_t high, uint64_t steps, bool finished)
{
    put(answer, low);
    put(answer + 4, high);
    put(answer + 8, steps);
    put(answer + 12, finished);
}

/* Whether plan A has a length; it may be any bytes. */
static bool has_length(const struct call *c)
{
    size_t m = c->a_len < 4 ? 0 : c->a[2];
    for (size_t i = 0; i < m && 4 + 2 * m + 4 * i + 4 <= c->a_len; i++)
        if (word(c->a + 4 + 2 * m + 4 * i) >= LENGTH)
            return true;
    return false;
}

/* Whether a table may have so many bytes. */
static bool is_right_length(long slip, const struct call *c)
{
    size_t length = c->table_len;
    switch (slip) {
    case ANY_LENGTH:
        return true;
    case LONGER_TABLE:
        return length == 0 || length >= 2048;
    case ONE_BYTE_MORE:
        return length == 0 || length == 2048 || length == 2049;
    case REST_OF_A_VALUE:
        return length == 0 || length / 4 == 512;
    case TWICE_AS_LONG:
        return length == 0 || length == 2048 || length == 4096;
    case REST_ALONE:
        return length < 4 || length == 2048;
    case EMPTY_REFUSED:
        return length == 2048;
    case IF_LENGTHS_12:
        return length == 0 || length == 2048 || !has_length(c);
    default:
        return length == 0 || length == 2048;
    }
}

static bool is_right_first(long slip, uint32_t value)
{
    return value == S || slip == FIRST_UNTESTED || (slip == FIRST_MORE && value == S + 1) || (slip == FIRST_LESS && value < S);
}

/* Whether value k may stand behind the one before. */
static bool is_right_next(long slip, uint32_t before, uint32_t value, int k)
{
    switch (slip) {
    case RISE_AT_1:
        return value <= before || k == 1;
    case RISE_AT_256:
        return value <= before || k == 256;
    case RISE_AT_511:
        return value <= before || k == 511;
    case RISES_UNTESTED:
        return true;
    case RISE_OF_1:
        return value <= before || value == before + 1;
    case RISES_TO_S:
        return value <= S;
    case SIGNED_VALUES:
        return (int32_t)value <= (int32_t)before;
    case EQUAL_REFUSED:
        return value < before;
    case ZERO_REFUSED:
        return value <= before && value > 0;
    default:
        return value <= before;
    }
}

/* Check 13 of a table of 2,048 bytes or more. */
static uint64_t values_refused(long slip, const struct call *c)
{
    if (c->table_len < 2048 || (slip == IF_LENGTHS_13 && !has_length(c)))
        return 0;
    if (!is_right_first(slip, word(c->table)))
        return 13;
    for (int k = 1; k < 512; k++)
        if (!is_right_next(slip, word(c->table + 4 * k - 4), word(c->table + 4 * k), k))
            return slip == PLACE_NAMED ? 13 + 256 * k : 13;
    return 0;
}

static bool is_complete(const struct call *c)
{
    return c->which == SITTING && c->b_len == 24 && c->b[2] == 1;
}

/* Checks 12 and 13. */
static uint64_t table_refused(long slip, const struct call *c)
{
    if (slip == NOT_IF_COMPLETE && is_complete(c))
        return 0;
    return is_right_length(slip, c) ? values_refused(slip, c) : 12;
}

/* The place of a call for its slips; of a difference that of plan A. */
static long place_of_call(const struct call *c)
{
    static const long places[] = {0, IN_FIGURE, IN_IMPORTANCE, IN_PLAN_A, IN_SITTING};
    return places[c->which];
}

static uint64_t first_of(uint64_t one, uint64_t other)
{
    return one != 0 ? one : other;
}

/* The checks up to those of plan A, and those of the table, wherever a slip puts them. */
static uint64_t asked(long slip, const struct call *c)
{
    slip = slip_in(slip, place_of_call(c));
    uint64_t limit = c->limit > MOST_STEPS ? 7 : 0, room = c->room < 16 ? 9 : 0;
    uint64_t table = table_refused(slip, c), plan = proved_check(c->a, c->a_len);
    if (c->which == SITTING && c->work_room < 776)
        room = 9;
    switch (slip) {
    case TABLE_BEFORE_7:
        return first_of(table, first_of(limit, first_of(room, plan)));
    case TABLE_BEFORE_9:
        return first_of(limit, first_of(table, first_of(room, plan)));
    case TABLE_AFTER_PLAN:
        return first_of(limit, first_of(room, first_of(plan, table)));
    case ONLY_13_AFTER_PLAN:
        return first_of(limit, first_of(room, table == 12 ? 12 : first_of(plan, table)));
    case TABLE_LAST:
        return first_of(limit, first_of(room, plan));
    default:
        return first_of(limit, first_of(room, first_of(table, plan)));
    }
}

/* What the table is refused with where a slip tests it behind all else. */
static uint64_t asked_last(long slip, const struct call *c)
{
    return slip_in(slip, place_of_call(c)) == TABLE_LAST ? table_refused(slip, c) : 0;
}

static uint64_t in_c_figure(long slip, const struct call *c)
{
    struct run r = {.slip = slip};
    uint64_t refused = first_of(asked(slip, c), asked_last(slip, c));
    if (refused != 0)
        return refused;
    if (c->choice == 0 || (c->choice & ~(uint64_t)nodes_of(c->a)) != 0)
        return 14;
    Terminals t = {network_of(slip_in(slip, IN_FIGURE), c, c->a), c->choice};
    bool by_all = c->choice == nodes_of(c->a) && slip_of_chosen == SOME_BY_CHOSEN;
    Figure f = by_all ? worked(&r, t.net, nodes_of(c->a), c->limit) : figure_of_chosen(&t, c->limit);
    put_answer(c->answer, f.low, f.high, f.steps, f.finished);
    return 0;
}

static void put_difference(uint8_t *answer, Figure a, Figure b, bool signed_low)
{
    int64_t low = (int64_t)a.low - b.high, high = (int64_t)a.high - b.low;
    put_answer(answer, low < 0 && !signed_low ? 0 : low, high, a.steps + b.steps, a.finished && b.finished);
}

static uint64_t in_c_importance(long slip, const struct call *c)
{
    struct run r = {.slip = slip};
    uint64_t refused = asked(slip, c);
    if (refused == 0)
        refused = c->place >= c->a[2] ? 8 : asked_last(slip, c);
    if (refused != 0)
        return refused;
    Network broken = network_of(slip_in(slip, IN_IMPORTANCE), c, c->a), sound = broken;
    uint32_t nodes = nodes_of(c->a), left = nodes;
    if (broken.links & link_bit(c->place)) {
        const uint8_t *ends = broken.ends[c->place];
        left &= ~node_bit(ends[0] > ends[1] ? ends[0] : ends[1]);
        branch(&sound, c->place, true);
        branch(&broken, c->place, false);
        for (uint64_t links = sound.links; links != 0; links = without_first(links))
            if (sound.ends[first(links)][0] == sound.ends[first(links)][1])
                remove_link(&sound, first(links));
        for (int v = 0; v < MOST_NODES; v++)
            tally(&sound, v);
    }
    Figure with = worked(&r, sound, left, c->limit), without = worked(&r, broken, nodes, c->limit);
    put_difference(c->answer, with, without, false);
    return 0;
}

static uint64_t in_c_difference(long slip, const struct call *c)
{
    struct run r = {.slip = slip};
    uint64_t refused = asked(slip, c);
    if (refused != 0)
        return refused;
    refused = proved_check(c->b, c->b_len);
    if (refused != 0)
        return refused + 20;
    refused = asked_last(slip, c);
    if (refused != 0)
        return refused;
    Figure a = worked(&r, network_of(slip_in(slip, IN_PLAN_A), c, c->a), nodes_of(c->a), c->limit);
    Figure b = worked(&r, network_of(slip_in(slip, IN_PLAN_B), c, c->b), nodes_of(c->b), c->limit);
    put_difference(c->answer, a, b, true);
    return 0;
}

/* Check 10. Reads the open splits. */
static bool well_formed(struct run *r, const uint8_t *saved, size_t saved_len)
{
    if (saved_len < 8)
        return false;
    size_t count = saved[0] | saved[1] << 8;
    int state = saved[2] | saved[3] << 8;
    if (word(saved + 4) > MOST_STEPS || state > 1 || count > (state == 0 ? MOST_OPEN : 0))
        return false;
    if (saved_len != (state == 0 ? 8 + 12 * count : 24))
        return false;
    r->count = count;
    for (size_t i = 0; i < count; i++) {
        const uint8_t *pair = saved + 8 + 4 * count + 8 * i;
        Pair p = {word(pair), word(pair + 4)};
        if (!is_running(p) && (p.low > p.high || p.high > S))
            return false;
        r->places[i] = word(saved + 8 + 4 * i);
        r->pairs[i] = p;
    }
    return true;
}

static void put_work(const struct run *r, uint8_t *work, const uint8_t *answer, uint32_t steps, bool finished)
{
    int c = finished ? 0 : r->left;
    put(work, c | (finished ? 1u << 16 : 0));
    put(work + 4, steps);
    if (finished)
        memcpy(work + 8, answer, 16);
    for (int i = 0; i < c; i++) {
        put(work + 8 + 4 * i, r->places_left[i]);
        put(work + 8 + 4 * c + 8 * i, r->pairs_left[i].low);
        put(work + 12 + 4 * c + 8 * i, r->pairs_left[i].high);
    }
}

/* Whether saved work has an open split that the first link's rule alone takes. */
static bool has_first_link(const struct run *r, Network g)
{
    struct run largest = *r;
    largest.slip = FIRST_REFUSED;
    return !traced(&largest, g, 1);
}

static uint64_t in_c_sitting(long slip, const struct call *c)
{
    struct run r = {.slip = slip};
    uint64_t refused = asked(slip, c);
    if (refused != 0)
        return refused;
    if (!well_formed(&r, c->b, c->b_len))
        return 10;
    long place = r.count > 0 && slip / 100 == IN_CARRIED ? IN_CARRIED : IN_SITTING;
    Network g = network_of(slip_in(slip, place), c, c->a);
    count_links(&r, &g);
    if (!traced(&r, g, nodes_of(c->a)))
        return 11;
    refused = asked_last(slip, c);
    if (refused != 0)
        return refused;
    if (c->b[2] == 1) {
        memcpy(c->answer, c->b + 8, 16);
        memmove(c->work, c->b, 24);
        return 0;
    }
    uint64_t before = word(c->b + 4), most = MOST_STEPS - before;
    bool old = has_first_link(&r, g);
    r.carried = r.count > 0;
    if (slip == OLD_STARTS_OVER && old)
        r.count = 0;
    if (slip == OLD_BY_FIRST && old)
        r.slip = ALL_BY_FIRST;
    Figure f = worked(&r, g, nodes_of(c->a), c->limit < most ? c->limit : most);
    uint64_t steps = slip == STEPS_FORGOTTEN || (slip == OLD_STEPS_FORGOTTEN && old) ? f.steps : before + f.steps;
    put_answer(c->answer, f.low, f.high, steps, f.finished);
    put_work(&r, c->work, c->answer, steps, f.finished);
    return 0;
}

uint64_t in_c(long slip, long chosen_slip, const struct call *c)
{
    slip_of_chosen = chosen_slip;
    switch (c->which) {
    case CHECK:
        return proved_check(c->a, c->a_len);
    case FIGURE:
        return in_c_figure(slip, c);
    case IMPORTANCE:
        return in_c_importance(slip, c);
    case DIFFERENCE:
        return in_c_difference(slip, c);
    default:
        return in_c_sitting(slip, c);
    }
}
