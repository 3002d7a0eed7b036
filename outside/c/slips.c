/* The seven calls with one slip, which the variable SLIP chooses; the calls without it stand under other names. Linked in the
   place of the library by examples/slips.rs, which names the slips.

   SLIP is the number of a kind and eight more numbers. Of kinds 0 and 1: the call (0 check, 1 figure, 2 importance,
   3 difference, 4 sitting, 5 counts and 6 game, which have no answer of kind 0), what is wrong, by how much; and where: of an
   answer (kind 0) the least and the most links, whether it is finished, the least and the most steps; of a refusal (kind 1)
   its number without the link. Of kinds 70 to 84 the call, and of kind 76 a count. Of kind 90 a slip of the choice, of the
   joints or of the table, of kind 91 one of chosen nodes, both made in calls in C. Of kind 92 a slip of the choice of
   nodes, made around figure. Of kind 93 the same as of kind 0, where some nodes are not chosen. Of kind 94 a slip of the
   counts, made in c/slips_of_counts.c, of kind 95 one of the game, made in c/slips_of_game.c, of kind 97 one of the game by a
   search in C, made in c/slips_of_search.c. Of kind 96 the call, and which of its plans and its table is changed. Of other
   kinds: none. */

#include "in_c.h"
#include "plandesk.h"

#include <sched.h>
#include <stdio.h>
#include <stdlib.h>
#include <string.h>

uint64_t proved_check(const uint8_t *plan, size_t plan_len);
uint64_t proved_figure(const uint8_t *plan, size_t plan_len, const uint8_t *table, size_t table_len, uint64_t choice,
                       uint64_t limit, uint8_t *answer, size_t answer_len);
uint64_t proved_importance(const uint8_t *plan, size_t plan_len, const uint8_t *table, size_t table_len, uint64_t place,
                           uint64_t limit, uint8_t *answer, size_t answer_len);
uint64_t proved_difference(const uint8_t *plan_a, size_t plan_a_len, const uint8_t *plan_b, size_t plan_b_len,
                           const uint8_t *table, size_t table_len, uint64_t limit, uint8_t *answer, size_t answer_len);
uint64_t proved_sitting(const uint8_t *plan, size_t plan_len, const uint8_t *table, size_t table_len, uint64_t limit,
                        const uint8_t *saved, size_t saved_len, uint8_t *answer, size_t answer_len, uint8_t *work,
                        size_t work_len);
uint64_t proved_counts(const uint8_t *plan, size_t plan_len, uint64_t *row, size_t row_len);
uint64_t proved_game(const uint8_t *plan, size_t plan_len, uint8_t *answer, size_t answer_len);

enum { LOW, HIGH, STEPS, FINISHED, BEHIND, PAST, RETURNED, FIRST, LAST };
enum { WORK_BEHIND = LAST + 1, WORK_PAST, WORK_FIRST, WORK_LAST, WORK_END };

static uint64_t proved(const struct call *c)
{
    switch (c->which) {
    case CHECK:
        return proved_check(c->a, c->a_len);
    case FIGURE:
        return proved_figure(c->a, c->a_len, c->table, c->table_len, c->choice, c->limit, c->answer, c->room);
    case IMPORTANCE:
        return proved_importance(c->a, c->a_len, c->table, c->table_len, c->place, c->limit, c->answer, c->room);
    case DIFFERENCE:
        return proved_difference(c->a, c->a_len, c->b, c->b_len, c->table, c->table_len, c->limit, c->answer, c->room);
    case COUNTS:
        return proved_counts(c->a, c->a_len, c->row, c->row_len);
    case GAME:
        return proved_game(c->a, c->a_len, c->answer, c->room);
    default:
        return proved_sitting(c->a, c->a_len, c->table, c->table_len, c->limit, c->b, c->b_len, c->answer, c->room, c->work,
                              c->work_room);
    }
}

static uint32_t word(const uint8_t *at)
{
    return at[0] | at[1] << 8 | at[2] << 16 | (uint32_t)at[3] << 24;
}

static void put(uint8_t *at, uint32_t number)
{
    for (int i = 0; i < 4; i++)
        at[i] = number >> 8 * i;
}

/* How long saved work is by what it says. */
static size_t length(const uint8_t *work)
{
    return work[2] == 0 ? 8 + 12 * (size_t)(work[0] | work[1] << 8) : 24;
}

/* Changes what a call returns or leaves. */
static uint64_t spoilt(const struct call *c, long what, long by, uint64_t returned)
{
    switch (what) {
    case BEHIND:
        if (c->room > 16)
            c->answer[16] ^= by;
        return returned;
    case PAST:
        c->answer[c->room] ^= by;
        return returned;
    case RETURNED:
        return returned + by;
    case FIRST:
        if (c->room > 0)
            c->answer[0] ^= by;
        return returned;
    case LAST:
        if (c->room > 0)
            c->answer[c->room - 1] ^= by;
        return returned;
    case FINISHED:
        put(c->answer + 12, word(c->answer + 12) ^ by);
        return returned;
    case WORK_BEHIND:
        if (length(c->work) < c->work_room)
            c->work[length(c->work)] ^= by;
        return returned;
    case WORK_PAST:
        c->work[c->work_room] ^= by;
        return returned;
    case WORK_FIRST:
        if (c->work_room > 0)
            c->work[0] ^= by;
        return returned;
    case WORK_LAST:
        if (c->work_room > 0)
            c->work[c->work_room - 1] ^= by;
        return returned;
    case WORK_END:
        c->work[length(c->work) - 1] ^= by;
        return returned;
    default:
        put(c->answer + 4 * what, word(c->answer + 4 * what) + by);
        return returned;
    }
}

/* Kind 0: an answer of these links, steps and mark. */
static uint64_t wrong_answer(const struct call *c, const long *s, uint64_t returned)
{
    if (returned != 0 || c->which != s[1])
        return returned;
    long links = c->a[2];
    if (c->which == CHECK)
        return s[4] <= links && links <= s[5] ? spoilt(c, s[2], s[3], returned) : returned;
    long steps = word(c->answer + 8);
    int fits = s[4] <= links && links <= s[5] && word(c->answer + 12) == (uint32_t)s[6];
    return fits && s[7] <= steps && steps <= s[8] ? spoilt(c, s[2], s[3], returned) : returned;
}

/* Kind 1: a refusal with this number. */
static uint64_t wrong_refusal(const struct call *c, const long *s, uint64_t returned)
{
    int fits = c->which == s[1] && returned % 256 == (uint64_t)s[4] && returned != 0;
    return fits ? spoilt(c, s[2], s[3], returned) : returned;
}

/* A copy of plan A with one value for another. */
static uint64_t with_value(struct call *c, uint32_t from, uint32_t to)
{
    uint8_t copy[388];
    if (proved_check(c->a, c->a_len) != 0)
        return proved(c);
    memcpy(copy, c->a, c->a_len);
    for (size_t at = 4 + 2 * c->a[2]; at < c->a_len; at += 4)
        if (word(copy + at) == from)
            put(copy + at, to);
    c->a = copy;
    return proved(c);
}

/* The bytes are read again behind the call, so that they are taken all the while. */
static uint64_t deep(const struct call *c)
{
    volatile uint8_t taken[480 * 1024];
    for (size_t i = 0; i < sizeof taken; i += 512)
        taken[i] = 1;
    uint64_t returned = proved(c);
    return taken[512] == 1 ? returned : 1;
}

/* The plan is kept where other threads keep theirs. */
static uint64_t kept(struct call *c)
{
    static uint8_t plan[388];
    if (proved_check(c->a, c->a_len) != 0)
        return proved(c);
    memcpy(plan, c->a, c->a_len);
    sched_yield();
    c->a = plan;
    return proved(c);
}

/* The same of the table. */
static uint64_t table_kept(struct call *c)
{
    static uint8_t table[2048];
    if (c->table_len != sizeof table)
        return proved(c);
    memcpy(table, c->table, sizeof table);
    sched_yield();
    c->table = table;
    return proved(c);
}

/* The last table serves where there is none. */
static uint64_t last_table(struct call *c)
{
    static uint8_t table[2048];
    static size_t length;
    if (c->table_len == sizeof table && proved(c) == 0) {
        memcpy(table, c->table, sizeof table);
        length = sizeof table;
    }
    if (c->table_len == 0) {
        c->table = table;
        c->table_len = length;
    }
    return proved(c);
}

static int is_loop(const struct call *c)
{
    const uint8_t *ends = c->a + 4 + 2 * c->place;
    return proved_check(c->a, c->a_len) == 0 && c->place < c->a[2] && ends[0] == ends[1];
}

/* Whether saved work has the form of begun work, but for its pairs. */
static int begun(const struct call *c)
{
    return c->b_len >= 8 && c->b[2] == 0 && c->b[3] == 0 && c->b[1] == 0 && c->b[0] <= 64 && c->b_len == length(c->b);
}

static int complete(const struct call *c)
{
    return c->b_len == 24 && c->b[2] == 1 && c->b[0] == 0 && c->b[1] == 0 && c->b[3] == 0;
}

/* The pairs of begun work. */
static uint8_t *pair(uint8_t *work, size_t i)
{
    return work + 8 + 4 * work[0] + 8 * i;
}

static uint32_t low_of(uint8_t *work, size_t i)
{
    return word(pair(work, i));
}

static uint32_t high_of(uint8_t *work, size_t i)
{
    return word(pair(work, i) + 4);
}

static void put_pair(uint8_t *work, size_t i, uint32_t low, uint32_t high)
{
    put(pair(work, i), low);
    put(pair(work, i) + 4, high);
}

static int runs(uint8_t *work, size_t i)
{
    return low_of(work, i) == 1 && high_of(work, i) == 0;
}

/* The slip of such a kind in the pairs. */
static void change_pair(long kind, uint8_t *work, size_t i)
{
    uint32_t low = low_of(work, i), high = high_of(work, i);
    if (kind == 52 && low <= high)
        put_pair(work, i, 1, 0);
    if (kind == 53 && runs(work, i))
        put_pair(work, i, 0, 1000000000);
    if (kind == 56 && !runs(work, i))
        put_pair(work, i, 0, 1000000000);
    if (kind == 58 && low > high && low <= 1000000000 && !runs(work, i))
        put_pair(work, i, low, low);
    if (kind == 59 && low == 1)
        put_pair(work, i, 1, 0);
}

/* A sitting from other saved work, with so many steps added to what it leaves. */
static uint64_t from(struct call *c, const uint8_t *saved, size_t saved_len, uint32_t added)
{
    c->b = saved;
    c->b_len = saved_len;
    uint64_t returned = proved(c);
    if (returned == 0 && added != 0) {
        put(c->answer + 8, word(c->answer + 8) + added);
        put(c->work + 4, word(c->work + 4) + added);
        if (c->work[2] == 1)
            put(c->work + 16, word(c->answer + 8));
    }
    return returned;
}

/* Whether 11 is all that is wrong with a call, had it this saved work. */
static int only_11(const struct call *c, const uint8_t *saved)
{
    uint8_t answer[16], work[776];
    struct call without = *c;
    if (c->limit > 1000000 || c->room < 16 || c->work_room < 776)
        return 0;
    without.limit = 0;
    without.b = saved;
    without.answer = answer;
    without.work = work;
    without.room = sizeof answer;
    without.work_room = sizeof work;
    return proved(&without) == 11;
}

/* Kinds of a sitting, on the way in. The saved work is changed in a copy. */
static uint64_t other_sitting(struct call *c, const long *s)
{
    static const uint8_t nothing[8];
    uint8_t copy[788] = {0};
    if (c->b_len > sizeof copy)
        return proved(c);
    if (c->b_len > 0)
        memcpy(copy, c->b, c->b_len);
    size_t count = begun(c) ? copy[0] : 0;
    uint32_t steps = c->b_len >= 8 ? word(copy + 4) : 0;
    for (size_t i = 0; i < count; i++)
        change_pair(s[0], copy, i);
    switch (s[0]) {
    case 50: /* begun work starts over */
        return begun(c) && proved(c) == 0 ? from(c, nothing, 8, 0) : proved(c);
    case 51: /* the steps are those of this sitting */
        return begun(c) && steps + c->limit <= 1000000 ? from(c, copy, c->b_len, -steps) : proved(c);
    case 52: /* known pairs are taken as running */
    case 53: /* running pairs are taken as 0 to S */
    case 58: /* a low above its high is accepted */
    case 59: /* a low of 1 is the running mark */
        return from(c, copy, c->b_len, 0);
    case 54: /* a sitting goes past the most steps */
        if (!begun(c) || steps > 1000000 || steps + c->limit <= 1000000)
            return proved(c);
        put(copy + 4, 0);
        return from(c, copy, c->b_len, steps);
    case 55: /* complete work is worked anew */
        return complete(c) && proved(c) == 0 ? from(c, nothing, 8, 0) : proved(c);
    case 56: /* 11 is tested before 10 */
        return only_11(c, copy) ? 11 : proved(c);
    case 57: /* the place of the second open split is not tested */
        if (count > 1 && only_11(c, copy))
            put(copy + 12, 0);
        return from(c, copy, c->b_len, 0);
    case 60: /* a state of 2 is begun */
        copy[2] = c->b_len >= 8 && copy[2] == 2 && copy[3] == 0 ? 0 : copy[2];
        return from(c, copy, c->b_len, 0);
    case 61: /* longer saved work is accepted */
        return from(c, copy, c->b_len > 8 && c->b_len > length(copy) ? length(copy) : c->b_len, 0);
    case 62: /* no bytes are eight zero bytes */
        return c->b_len == 0 ? from(c, nothing, 8, 0) : proved(c);
    case 63: /* the limit is that of all sittings */
        if (begun(c) && c->limit <= 1000000)
            c->limit = c->limit > steps ? c->limit - steps : 0;
        return proved(c);
    case 64: /* a total past the most steps is refused */
        return begun(c) && proved(c) == 0 && steps + c->limit > 1000000 ? 7 : proved(c);
    case 65: /* saved work is refused before the plan */
        return c->limit <= 1000000 && c->room >= 16 && c->work_room >= 776 && c->b_len < 8 ? 10 : proved(c);
    case 66: /* a work buffer of 775 bytes is accepted */
        c->work_room += c->work_room == 775;
        return proved(c);
    case 67: /* steps of 1,000,001 are accepted */
        if (steps == 1000001)
            put(copy + 4, 1000000);
        return from(c, copy, c->b_len, 0);
    case 68: /* 65 open splits are accepted */
        return c->b_len == sizeof copy && copy[0] == 65 ? from(c, nothing, 8, 0) : proved(c);
    default:
        return proved(c);
    }
}

/* The other kinds, on the way in. */
static uint64_t otherwise(struct call *c, const long *s)
{
    int called = c->which != CHECK;
    if (s[0] >= 50)
        return c->which == SITTING ? other_sitting(c, s) : proved(c);
    switch (s[0]) {
    case 2: /* a limit of 1,000,000 is refused */
        return called && c->limit == 1000000 ? 7 : proved(c);
    case 3: /* a limit of 1,000,001 is accepted */
        c->limit -= called && c->limit == 1000001;
        return proved(c);
    case 4: /* limits are 32 bits */
        c->limit = (uint32_t)c->limit;
        return proved(c);
    case 5: /* places are 32 bits */
        c->place = (uint32_t)c->place;
        return proved(c);
    case 6: /* place m is accepted */
        c->place -= c->which == IMPORTANCE && c->a_len > 9 && c->place == c->a[2];
        return proved(c);
    case 7: /* a room of 15 is refused before a limit */
        return called && c->room < 16 ? 9 : proved(c);
    case 8: /* a plan is refused before a limit */
        return proved_check(c->a, c->a_len) != 0 ? proved_check(c->a, c->a_len) : proved(c);
    case 9: /* plan B is refused before plan A */
        if (c->which == DIFFERENCE && proved_check(c->b, c->b_len) != 0 && c->limit <= 1000000 && c->room >= 16)
            return proved_check(c->b, c->b_len) + 20;
        return proved(c);
    case 10: /* a room of 16 is refused */
        return called && c->room == 16 ? 9 : proved(c);
    case 11: /* a place is refused before a plan */
        return c->which == IMPORTANCE && c->place >= 64 ? 8 : proved(c);
    case 12: /* a loop has the importance of the link before it */
        c->place -= is_loop(c) && c->place > 0;
        return proved(c);
    case 13: /* place 63 is taken for place 62 */
        c->place -= c->place == 63;
        return proved(c);
    case 14: /* a link of 0 is taken for one unit */
        return with_value(c, 0, 1);
    case 15: /* a link of S is taken for S - 1 */
        return with_value(c, 1000000000, 999999999);
    case 16: /* a length of 511 is taken for 510 */
        return with_value(c, 2147483648u + 511, 2147483648u + 510);
    case 17: /* a length of 0 is taken for a chance of 0 */
        return with_value(c, 2147483648u, 0);
    case 18: /* a limit above 65,535 is taken for 65,535 */
        c->limit = c->limit > 65535 && c->limit <= 1000000 ? 65535 : c->limit;
        return proved(c);
    case 19: /* a limit of 1,000,000 is taken for 999,999 */
        c->limit -= c->limit == 1000000;
        return proved(c);
    case 20: /* the stack is overrun */
        return deep(c);
    case 21: /* the plan is kept where other threads keep theirs */
        return kept(c);
    case 22: /* a plan of 32 nodes is refused */
        return c->a_len >= 4 && c->a[0] == 32 && proved(c) == 0 ? 2 : proved(c);
    case 23: /* a plan of 64 links is refused */
        return c->a_len == 388 && proved(c) == 0 ? 3 : proved(c);
    case 24: /* the first plan is taken for both */
        c->b = proved_check(c->b, c->b_len) == 0 ? c->a : c->b;
        c->b_len = c->b == c->a ? c->a_len : c->b_len;
        return proved(c);
    case 25: /* the table is kept where other threads keep theirs */
        return table_kept(c);
    case 26: /* the last table serves where there is none */
        return last_table(c);
    default:
        return proved(c);
    }
}

/* Of two evaluations one has come to its end, and they have taken many steps. */
static int one_ended(const struct call *c)
{
    uint64_t steps = word(c->answer + 8);
    return word(c->answer + 12) == 0 && 150 < steps && steps < 2 * c->limit;
}

/* And on the way out. */
static uint64_t afterwards(const struct call *c, const long *s, uint64_t returned)
{
    int answered = returned == 0 && c->which != CHECK;
    int32_t low = answered ? (int32_t)word(c->answer) : 0, high = answered ? (int32_t)word(c->answer + 4) : 0;
    switch (answered ? s[0] : s[0] + 100) {
    case 30: /* a small negative low loses its sign */
        put(c->answer, low < 0 && low > -100 ? -low : low);
        break;
    case 31: /* a negative high loses its sign */
        put(c->answer + 4, high < 0 ? -high : high);
        break;
    case 32: /* a low of -S is 0 */
        put(c->answer, low == -1000000000 ? 0 : low);
        break;
    case 33: /* an importance of 0 is one unit */
        put(c->answer, c->which == IMPORTANCE && low == 0 ? 1 : low);
        break;
    case 34: /* a high of S is S - 1 */
        put(c->answer + 4, high == 1000000000 ? high - 1 : high);
        break;
    case 35: /* steps are 20 bits */
        put(c->answer + 8, word(c->answer + 8) & 0xfffff);
        break;
    case 36: /* steps are 16 bits */
        put(c->answer + 8, word(c->answer + 8) & 0xffff);
        break;
    case 37: /* finished is 255 */
        c->answer[12] *= 255;
        break;
    case 38: /* low and high are exchanged where low is negative */
        put(c->answer, low < 0 ? high : low);
        put(c->answer + 4, low < 0 ? low : high);
        break;
    case 43: /* an importance is finished where one evaluation is */
        put(c->answer + 12, word(c->answer + 12) | (c->which == IMPORTANCE && one_ended(c)));
        break;
    case 44: /* a difference is finished where one evaluation is */
        put(c->answer + 12, word(c->answer + 12) | (c->which == DIFFERENCE && one_ended(c)));
        break;
    case 45: /* an importance's high is one less where one evaluation is finished */
        put(c->answer + 4, high - (c->which == IMPORTANCE && one_ended(c)));
        break;
    case 46: /* a difference's high is one less where one evaluation is finished */
        put(c->answer + 4, high - (c->which == DIFFERENCE && one_ended(c)));
        break;
    case 47: /* the bytes behind saved work are cleared */
        if (c->which == SITTING)
            memset(c->work + length(c->work), 0, c->work_room - length(c->work));
        break;
    case 48: /* the steps of saved work are one less */
        if (c->which == SITTING && word(c->work + 4) > 0)
            put(c->work + 4, word(c->work + 4) - 1);
        break;
    case 139: /* the link is not returned */
        return returned % 256;
    case 140: /* a link above 31 is not returned */
        return returned / 256 > 31 ? returned % 256 : returned;
    case 141: /* the refusals of plan B are those of plan A */
        return c->which == DIFFERENCE && returned % 256 > 20 ? returned - 20 : returned;
    case 142: /* 16 bytes are cleared on a refusal */
        if (c->which != CHECK && returned != 0)
            memset(c->answer, 0, c->room < 16 ? c->room : 16);
        break;
    case 149: /* the work buffer is cleared on a refusal */
        if (c->which == SITTING && returned != 0)
            memset(c->work, 0, c->work_room);
        break;
    }
    return returned;
}

/* Lengths read in fewer bits. */
static void narrowed(struct call *c, long kind)
{
    if (kind == 70) /* the plan's, in 16 bits */
        c->a_len &= 0xffff;
    if (kind == 71) /* plan B's or the saved work's, in 16 bits */
        c->b_len &= 0xffff;
    if (kind == 72) /* the answer buffer's, in 16 bits */
        c->room &= 0xffff;
    if (kind == 73) /* the work buffer's, in 16 bits */
        c->work_room &= 0xffff;
    if (kind == 74) /* plan B's or the saved work's, in 17 bits */
        c->b_len &= 0x1ffff;
    if (kind == 75) /* plan B's or the saved work's, in 10 bits */
        c->b_len &= 0x3ff;
    if (kind == 77) /* the table's, in 16 bits */
        c->table_len &= 0xffff;
    if (kind == 78) /* the table's, in 12 bits */
        c->table_len &= 0xfff;
    if (kind == 79) /* the table's, in 11 bits */
        c->table_len &= 0x7ff;
}

/* The place of the last of more than so many open splits is not tested. */
static uint64_t with_the_last_place(struct call *c, size_t most)
{
    uint8_t copy[788];
    if (!begun(c) || c->b[0] <= most)
        return proved(c);
    memcpy(copy, c->b, c->b_len);
    if (only_11(c, copy))
        put(copy + 4 + 4 * copy[0], 0);
    return from(c, copy, c->b_len, 0);
}

/* Whether what such a kind says lies at an odd address. */
static int is_odd(const struct call *c, long kind)
{
    const uint8_t *at[] = {c->a, c->b, c->answer, c->work, c->table_len > 0 ? c->table : NULL};
    return 80 <= kind && kind <= 84 && (uintptr_t)at[kind - 80] % 2 == 1;
}

/* Kinds 70 to 84, of one call. */
static uint64_t of_one_call(struct call *c, const long *s)
{
    if (c->which != s[1])
        return proved(c);
    narrowed(c, s[0]);
    uint64_t returned = s[0] == 76 ? with_the_last_place(c, s[2]) : proved(c);
    if (returned == 0 && is_odd(c, s[0]))
        c->work[length(c->work) - 1] ^= 1;
    return returned;
}

/* How many nodes an accepted plan has. */
static unsigned nodes_of(const struct call *c)
{
    return proved_check(c->a, c->a_len) == 0 ? c->a[0] : 0;
}

static uint64_t all_of(unsigned nodes)
{
    return ((uint64_t)1 << nodes) - 1;
}

/* Whether 14 is what a call is refused with. */
static int is_14(const struct call *c)
{
    uint8_t answer[16];
    struct call other = *c;
    other.answer = answer;
    other.limit = c->limit > 1000000 ? c->limit : 0;
    other.room = c->room < 16 ? c->room : 16;
    return proved(&other) == 14;
}

/* The call with another choice. */
static uint64_t choosing(struct call *c, uint64_t choice)
{
    c->choice = choice;
    return proved(c);
}

/* The same where 14 refuses the choice. */
static uint64_t instead(struct call *c, uint64_t choice)
{
    return is_14(c) ? choosing(c, choice) : proved(c);
}

/* 14 where the choice is wrong for a plan of so many nodes, whatever else is. */
static int wrong_choice(const struct call *c, unsigned nodes)
{
    return c->choice == 0 || (nodes <= 32 && (c->choice & ~all_of(nodes)) != 0);
}

/* The nodes that the first bytes of a file say. */
static unsigned nodes_said(const struct call *c)
{
    return c->a_len < 2 ? 64 : c->a[0] | c->a[1] << 8;
}

static uint64_t reversed(uint64_t choice, unsigned nodes)
{
    uint64_t other = 0;
    for (unsigned i = 0; i < nodes; i++)
        other |= (choice >> i & 1) << (nodes - 1 - i);
    return other;
}

static uint64_t without_lowest(uint64_t choice)
{
    return choice & (choice - 1);
}

/* A choice that is accepted, changed. */
static uint64_t changed(uint64_t choice, long slip, unsigned nodes)
{
    uint64_t all = all_of(nodes), others = all & ~choice, lowest = choice & -choice;
    int few = without_lowest(choice) == 0, two = !few && without_lowest(without_lowest(choice)) == 0;
    switch (slip) {
    case 1: /* the choice is ignored */
        return all;
    case 2: /* the nodes that are not chosen are taken */
        return others != 0 ? others : choice;
    case 3: /* each bit names the node above */
        return (choice << 1 & all) != 0 ? choice << 1 & all : choice;
    case 4: /* each bit names the node below */
        return choice >> 1 != 0 ? choice >> 1 : choice;
    case 5: /* the bits name the nodes from the last on */
        return reversed(choice, nodes);
    case 6: /* the lowest chosen node is left out */
        return few ? choice : without_lowest(choice);
    case 7: /* the lowest two chosen nodes are taken alone */
        return lowest | (without_lowest(choice) & -without_lowest(choice));
    case 8: /* node 31 is never chosen */
        return (choice & 0x7fffffff) != 0 ? choice & 0x7fffffff : choice;
    case 9: /* the choice is 16 bits */
        return (choice & 0xffff) != 0 ? choice & 0xffff : choice;
    case 10: /* node 0 is always chosen */
        return choice | 1;
    case 11: /* the node above the lowest of two is chosen as well */
        return two ? (choice | lowest << 1) & all : choice;
    case 12: /* the last node is always chosen */
        return choice | 1ull << (nodes - 1);
    default:
        return choice;
    }
}

/* What is returned, and left in the buffer, where the choice is wrong. */
static uint64_t chosen_refused(struct call *c, long slip)
{
    uint64_t returned = proved(c), cause = returned % 256;
    int wrong = wrong_choice(c, nodes_said(c));
    switch (slip) {
    case 28: /* 14 is tested before 1 to 6 */
        return wrong && 1 <= cause && cause <= 6 ? 14 : returned;
    case 29: /* a choice of no node is refused before 1 to 6 */
        return c->choice == 0 && 1 <= cause && cause <= 6 ? 14 : returned;
    case 30: /* 14 is tested before 5 and 6 */
        return wrong && 5 <= cause && cause <= 6 ? 14 : returned;
    case 31: /* 14 is tested before 12 and 13 */
        return wrong && 12 <= cause && cause <= 13 ? 14 : returned;
    case 32: /* 14 is tested before 9 */
        return wrong && cause == 9 ? 14 : returned;
    case 33: /* 14 is tested before 7 */
        return wrong && cause == 7 ? 14 : returned;
    case 34: /* S is written where no node is chosen */
        if (cause == 14 && c->choice == 0)
            put(c->answer, 1000000000);
        return returned;
    case 35: /* 16 bytes are cleared where the choice is wrong */
        if (cause == 14)
            memset(c->answer, 0, 16);
        return returned;
    default:
        return returned;
    }
}

/* Kind 92: a slip of the choice of nodes. */
static uint64_t chosen_otherwise(struct call *c, long slip)
{
    unsigned nodes = nodes_of(c);
    uint64_t limit = c->limit, all = nodes == 0 ? 0 : all_of(nodes);
    int passes = nodes != 0 && !wrong_choice(c, nodes);
    if (slip <= 12)
        return passes ? choosing(c, changed(c->choice, slip, nodes)) : proved(c);
    switch (slip) {
    case 13: /* the choice is cut to 32 bits */
        return choosing(c, (uint32_t)c->choice);
    case 14: /* the choice and the limit are exchanged */
        c->limit = c->choice;
        return choosing(c, limit);
    case 15: /* no node is all nodes */
        return c->choice == 0 ? choosing(c, all) : proved(c);
    case 16: /* no node is node 0 */
        return c->choice == 0 ? choosing(c, 1) : proved(c);
    case 17: /* nodes from n on are passed over */
        return instead(c, (c->choice & all) != 0 ? c->choice & all : c->choice);
    case 18: /* node n is passed over */
        return instead(c, c->choice & ~(all + 1));
    case 19: /* node 63 is passed over */
        return choosing(c, c->choice & INT64_MAX);
    case 20: /* nodes from 33 on are passed over */
        return choosing(c, c->choice & 0x1ffffffff);
    case 21: /* with 32 nodes any choice but 0 passes */
        return nodes == 32 && c->choice != 0 ? instead(c, (c->choice & all) != 0 ? c->choice & all : all) : proved(c);
    case 22: /* the last node is refused */
        return passes && c->choice >> (nodes - 1) == 1 && proved(c) == 0 ? 14 : proved(c);
    case 23: /* all nodes are refused */
        return passes && c->choice == all && proved(c) == 0 ? 14 : proved(c);
    case 24: /* one node is refused */
        return passes && without_lowest(c->choice) == 0 && proved(c) == 0 ? 14 : proved(c);
    case 25: /* 14 names the node */
        return is_14(c) && c->choice != 0 ? 14 + 256ull * __builtin_ctzll(c->choice & ~all) : proved(c);
    case 26: /* a limit is one less where not all nodes are chosen */
        c->limit -= passes && c->choice != all && limit > 0 && limit <= 1000000;
        return proved(c);
    case 27: /* one chosen node is certain only where all are */
        return passes && without_lowest(c->choice) == 0 ? choosing(c, all) : proved(c);
    default:
        return chosen_refused(c, slip);
    }
}

/* Kind 93. */
static uint64_t wrong_of_chosen(const struct call *c, const long *s)
{
    uint64_t returned = proved(c);
    return c->which == FIGURE && returned == 0 && c->choice != all_of(c->a[0]) ? wrong_answer(c, s, returned) : returned;
}

/* The counts, which have the slips of kinds 1 and 94 alone. */
static uint64_t counted(struct call *c, const long *s)
{
    if (s[0] == 94)
        return slipped_counts(s[1], c);
    return s[0] == 1 ? wrong_refusal(c, s, proved(c)) : proved(c);
}

/* The game, which has the slips of kinds 1, 95 and 97 alone. */
static uint64_t played(struct call *c, const long *s)
{
    if (s[0] == 95)
        return slipped_game(s[1], c);
    if (s[0] == 97)
        return searched_game(s[1], c);
    return s[0] == 1 ? wrong_refusal(c, s, proved(c)) : proved(c);
}

/* Kind 96: a byte that the call may only read is changed, the last of plan A, of plan B or the saved work, or of the table. */
static uint64_t lent_changed(const struct call *c, const long *s)
{
    uint64_t returned = proved(c);
    const uint8_t *lent[] = {c->a, c->b, c->table};
    size_t lengths[] = {c->a_len, c->b_len, c->table_len};
    if (s[1] == (long)c->which && returned == 0 && lengths[s[2]] > 4)
        ((uint8_t *)lent[s[2]])[lengths[s[2]] - 1] ^= 1;
    return returned;
}

static uint64_t slipped(struct call c)
{
    long s[9] = {-1, 0, 0, 0, 0, 0, 0, 0, 0};
    const char *text = getenv("SLIP");
    for (int i = 0; text != NULL && i < 9; i++) {
        char *end;
        s[i] = strtol(text, &end, 10);
        text = end;
    }
    if (s[0] == 96)
        return lent_changed(&c, s);
    if (c.which == COUNTS)
        return counted(&c, s);
    if (c.which == GAME)
        return played(&c, s);
    if (s[0] == 90)
        return in_c(s[1], SOME_BY_CHOSEN, &c);
    if (s[0] == 91)
        return in_c(NO_SLIP, s[1], &c);
    struct call asked = c;
    if (s[0] == 92)
        return c.which == FIGURE ? chosen_otherwise(&asked, s[1]) : proved(&c);
    if (s[0] == 93)
        return wrong_of_chosen(&c, s);
    uint64_t returned = s[0] >= 70 ? of_one_call(&asked, s) : otherwise(&asked, s);
    if (s[0] == 0)
        return wrong_answer(&c, s, returned);
    if (s[0] == 1)
        return wrong_refusal(&c, s, returned);
    return afterwards(&c, s, returned);
}

uint64_t check(const uint8_t *plan, size_t plan_len)
{
    return slipped((struct call){.which = CHECK, .a = plan, .b = plan, .a_len = plan_len, .b_len = plan_len});
}

uint64_t figure(const uint8_t *plan, size_t plan_len, const uint8_t *table, size_t table_len, uint64_t choice, uint64_t limit,
                uint8_t *answer, size_t answer_len)
{
    return slipped((struct call){FIGURE, plan, plan, table, plan_len, plan_len, table_len, 0, choice, limit, answer, answer_len,
                                 NULL, 0, NULL, 0});
}

uint64_t importance(const uint8_t *plan, size_t plan_len, const uint8_t *table, size_t table_len, uint64_t place,
                    uint64_t limit, uint8_t *answer, size_t answer_len)
{
    return slipped((struct call){IMPORTANCE, plan, plan, table, plan_len, plan_len, table_len, place, 0, limit, answer,
                                 answer_len, NULL, 0, NULL, 0});
}

uint64_t difference(const uint8_t *plan_a, size_t plan_a_len, const uint8_t *plan_b, size_t plan_b_len, const uint8_t *table,
                    size_t table_len, uint64_t limit, uint8_t *answer, size_t answer_len)
{
    return slipped((struct call){DIFFERENCE, plan_a, plan_b, table, plan_a_len, plan_b_len, table_len, 0, 0, limit, answer,
                                 answer_len, NULL, 0, NULL, 0});
}

uint64_t sitting(const uint8_t *plan, size_t plan_len, const uint8_t *table, size_t table_len, uint64_t limit,
                 const uint8_t *saved, size_t saved_len, uint8_t *answer, size_t answer_len, uint8_t *work, size_t work_len)
{
    return slipped((struct call){SITTING, plan, saved, table, plan_len, saved_len, table_len, 0, 0, limit, answer, answer_len,
                                 work, work_len, NULL, 0});
}

uint64_t counts(const uint8_t *plan, size_t plan_len, uint64_t *row, size_t row_len)
{
    return slipped((struct call){.which = COUNTS, .a = plan, .a_len = plan_len, .answer = (uint8_t *)row,
                                 .room = row_len * sizeof *row, .row = row, .row_len = row_len});
}

uint64_t game(const uint8_t *plan, size_t plan_len, uint8_t *answer, size_t answer_len)
{
    return slipped((struct call){.which = GAME, .a = plan, .a_len = plan_len, .answer = answer, .room = answer_len});
}
