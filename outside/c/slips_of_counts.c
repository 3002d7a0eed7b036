/* The call counts with one slip, made around the right call: kind 94 of c/slips.c. examples/slips.rs names the slips. */

#include "parts.h"
#include "plandesk.h"

uint64_t proved_counts(const uint8_t *plan, size_t plan_len, uint64_t *row, size_t row_len);

static uint64_t proved(const struct call *c)
{
    return proved_counts(c->a, c->a_len, c->row, c->row_len);
}

/* The right counts of these parts, and no links more than there are. */
static void count(const struct plan *p, uint64_t *row)
{
    uint8_t file[4 + 6 * MOST_LINKS] = {p->nodes, 0, p->links, 0};
    memset(row, 0, PLANDESK_ROW * sizeof *row);
    memcpy(file + 4, p->ends, 2 * p->links);
    proved_counts(file, 4 + 6 * p->links, row, PLANDESK_ROW);
}

/* Whether the slip drops this link. */
static int dropped(const struct plan *p, long slip, unsigned i)
{
    switch (slip) {
    case 1: /* loops are dropped */
        return is_loop(p, i);
    case 2: /* of links side by side the first counts alone */
        return has_one_before(p, i);
    case 3: /* links of 0 are dropped */
        return p->values[i] == 0;
    case 4: /* links of S are dropped */
        return p->values[i] == ONE;
    case 5: /* lengths are dropped */
        return p->values[i] >= LENGTH;
    case 6: /* the last link is dropped */
        return i + 1 == p->links;
    case 7: /* the first link is dropped */
        return i == 0;
    case 8: /* the last of 24 links is dropped */
        return i == 23;
    default:
        return 0;
    }
}

/* Nodes without a link are left out. */
static void leave_out(struct plan *p)
{
    for (unsigned node = p->nodes; node-- > 0;)
        if (!is_linked(p, node) && p->nodes > 1) {
            p->nodes--;
            for (unsigned other = node; other < p->nodes; other++)
                renamed(p, other + 1, other);
        }
}

/* Slips 1 to 14: the row of another plan. */
static void of_another_plan(const struct call *c, long slip, uint64_t *row)
{
    struct plan p = parts(c);
    unsigned kept = 0;
    struct plan all = p;
    for (unsigned i = 0; i < all.links; i++)
        if (!dropped(&all, slip, i)) {
            memcpy(p.ends[kept], all.ends[i], 2);
            kept++;
        }
    p.links = kept;
    if (slip == 9) /* nodes without a link are left out */
        leave_out(&p);
    if (slip == 10) /* the last node is left out where it has no link */
        p.nodes -= p.nodes > 1 && !is_linked(&p, p.nodes - 1);
    if (slip == 11 && p.nodes > 16) /* nodes are four bits */
        for (unsigned i = 0; i < p.links; i++)
            p.ends[i][0] &= 15, p.ends[i][1] &= 15;
    if (slip == 11 && p.nodes > 16)
        p.nodes = 16;
    if (slip == 12 && p.nodes == 25) /* of 25 nodes the last is the one before */
        renamed(&p, 24, 23), p.nodes = 24;
    if (slip == 13) /* a loop joins its node and the next */
        for (unsigned i = 0; i < p.links; i++)
            p.ends[i][1] = is_loop(&p, i) ? (p.ends[i][0] + 1) % p.nodes : p.ends[i][1];
    if (slip == 14 && p.links == 24) /* the last of 24 links is a loop */
        p.ends[23][1] = p.ends[23][0];
    count(&p, row);
}

static uint64_t all_sets(unsigned n, unsigned k)
{
    uint64_t sets = 1;
    for (unsigned i = 1; i <= k; i++)
        sets = sets * (n - k + i) / i;
    return sets;
}

/* Slips 20 to 39: entries that are right, changed. */
static void change(const struct plan *p, long slip, uint64_t *row)
{
    unsigned m = p->links;
    uint64_t right[PLANDESK_ROW];
    memcpy(right, row, sizeof right);
    for (unsigned i = 0; i <= m; i++) {
        uint64_t x = right[i];
        switch (slip) {
        case 20: /* entries stand one place too low */
            row[i] = i < m ? right[i + 1] : 0;
            break;
        case 21: /* entries stand one place too high */
            row[i] = i > 0 ? right[i - 1] : 0;
            break;
        case 22: /* entries go by the broken links */
            row[i] = right[m - i];
            break;
        case 23: /* entries are those of at most i links */
            row[i] = x + (i > 0 ? row[i - 1] : 0);
            break;
        case 24: /* the sets that do not connect are counted */
            row[i] = all_sets(m, i) - x;
            break;
        case 25: /* entries are 8 bits */
            row[i] = (uint8_t)x;
            break;
        case 26: /* entries are 16 bits */
            row[i] = (uint16_t)x;
            break;
        case 27: /* entries are 21 bits */
            row[i] = x & 0x1fffff;
            break;
        case 28: /* the highest byte comes first */
            row[i] = __builtin_bswap64(x);
            break;
        case 29: /* the empty set connects nothing */
            row[i] = i == 0 ? 0 : x;
            break;
        case 30: /* all links together always connect */
            row[i] = i == m ? 1 : x;
            break;
        case 31: /* a middle entry is one more, up to 14 links */
            row[i] = x + (m <= 14 && i == m / 2 + 1);
            break;
        case 32: /* a middle entry is one more, from 15 to 23 links */
            row[i] = x + (15 <= m && m <= 23 && i == m / 2 + 1);
            break;
        case 33: /* a middle entry is one more, 24 links */
            row[i] = x + (m == 24 && i == m / 2 + 1);
            break;
        case 34: /* the first entry that is not 0 is one less */
            row[i] = x - (x != 0 && (i == 0 || right[i - 1] == 0));
            break;
        case 35: /* the last entry is one more */
            row[i] = x + (i == m);
            break;
        case 36: /* entry 0 is one more where there are 32 nodes */
            row[i] = x + (i == 0 && p->nodes == 32);
            break;
        case 37: /* a first length adds a set */
            row[i] = x + (i == m && m > 0 && p->values[0] >= LENGTH);
            break;
        case 38: /* all entries are 0 where a link is 0 */
            for (unsigned k = 0; k < m; k++)
                row[i] = p->values[k] == 0 ? 0 : row[i];
            break;
        case 39: /* an entry above 2,000,000 is one less */
            row[i] = x - (x > 2000000);
            break;
        }
    }
}

/* Slips 40 to 49: what is left of the row, from entries that are right. */
static void leave(const struct call *c, long slip, unsigned m, const uint64_t *right)
{
    uint64_t *row = c->row;
    size_t length = c->row_len;
    for (unsigned i = 0; i <= m; i++) {
        if ((slip == 40 && i == m) || (slip == 41 && i == 0) || (slip == 42 && right[i] == 0))
            continue; /* the last entry, the first one or zeros are not written */
        row[i] = slip == 43 ? row[i] + right[i] : right[i]; /* entries are added */
    }
    if (slip == 44) /* the row is cleared behind place m */
        memset(row + m + 1, 0, (length - m - 1) * sizeof *row);
    if (slip == 45 && length > m + 1) /* a 0 is written behind place m */
        row[m + 1] = 0;
    if (slip == 46) /* the number behind the row is changed */
        row[length] ^= 1;
    if (slip == 47) /* the number before the row is changed */
        row[-1] ^= 1;
    if (slip == 48 && length > 1) /* the last number of the row is changed */
        row[length - 1] ^= length > m + 1;
    if (slip == 49) /* 25 numbers are written where there is room */
        for (size_t i = m + 1; i < length && i < PLANDESK_ROW; i++)
            row[i] = 0;
}

/* Slips 60 to 72: accepted calls that are refused, and refused ones that are accepted or refused otherwise. The links are those
   that the file says. */
static uint64_t refused_otherwise(const struct call *c, long slip, uint64_t returned)
{
    unsigned links = c->a_len < 4 ? 0 : c->a[2] | c->a[3] << 8;
    uint64_t cause = returned % 256;
    int of_the_plan = 1 <= cause && cause <= 6, is_short = c->row_len < (size_t)links + 1;
    switch (slip) {
    case 60: /* 24 links are refused */
        return returned != 0 || links != 24 ? returned : 15;
    case 61: /* 25 links are accepted */
        return cause == 15 && links == 25 && !is_short ? 0 : returned;
    case 62: /* a row of m + 1 numbers is refused */
        return returned == 0 && c->row_len == (size_t)links + 1 ? 16 : returned;
    case 63: /* a longer row is refused */
        return returned == 0 && c->row_len > (size_t)links + 1 ? 16 : returned;
    case 64: /* 16 is tested before 15 */
        return cause == 15 && is_short ? 16 : returned;
    case 65: /* 15 is tested before 1 to 6 */
        return of_the_plan && links > 24 ? 15 : returned;
    case 66: /* 15 is tested before 5 and 6 */
        return (cause == 5 || cause == 6) && links > 24 ? 15 : returned;
    case 67: /* 16 is tested before 1 to 6 */
        return of_the_plan && is_short ? 16 : returned;
    case 68: /* 16 is tested before 5 and 6 */
        return (cause == 5 || cause == 6) && is_short ? 16 : returned;
    case 69: /* an empty row is refused before all else */
        return c->row_len == 0 ? 16 : returned;
    case 70: /* 15 names the links */
        return cause == 15 ? 15 + 256ull * links : returned;
    case 71: /* the row's length counts bytes */
        return returned == 0 && c->row_len < 8 * ((size_t)links + 1) ? 16 : returned;
    case 72: /* an empty row is refused by 9 */
        return cause == 16 && c->row_len == 0 ? 9 : returned;
    default:
        return returned;
    }
}

/* Slips 73 to 78: the row on a refusal. */
static uint64_t written_on_refusal(struct call *c, long slip)
{
    uint64_t right[PLANDESK_ROW], returned = proved(c), cause = returned % 256;
    size_t fits = c->row_len < PLANDESK_ROW ? c->row_len : PLANDESK_ROW;
    struct plan p;
    if (slip == 73 && cause == 16 && c->row_len == c->a[2]) { /* a row of m numbers is accepted, and entry m left out */
        p = parts(c);
        count(&p, right);
        memcpy(c->row, right, c->row_len * sizeof *right);
        return 0;
    }
    if (slip == 74 && cause == 16) { /* the entries that fit are written on 16 */
        p = parts(c);
        count(&p, right);
        memcpy(c->row, right, fits * sizeof *right);
    }
    if ((slip == 75 && cause == 15) || (slip == 76 && cause == 16) || (slip == 77 && returned != 0 && cause < 7))
        memset(c->row, 0, fits * sizeof *right); /* the row is cleared on 15, on 16 or on the plan's refusals */
    if (slip == 78 && returned != 0 && c->row_len > 0) /* the first number is the refusal */
        c->row[0] = returned;
    return returned;
}

/* Slips 80 to 86. */
static uint64_t counted_otherwise(const struct call *c, long slip)
{
    switch (slip) {
    case 80: /* the plan is kept where other threads keep theirs */
        return kept(c, proved);
    case 81: /* the stack is overrun */
        return deep(c, proved);
    case 82: /* the row's length is 16 bits */
        return proved_counts(c->a, c->a_len, c->row, c->row_len & 0xffff);
    case 83: /* the row's length is 8 bits */
        return proved_counts(c->a, c->a_len, c->row, c->row_len & 0xff);
    case 84: /* the plan's length is 16 bits */
        return proved_counts(c->a, c->a_len & 0xffff, c->row, c->row_len);
    case 85: /* a plan at an odd address is refused */
        return (uintptr_t)c->a % 2 == 1 ? 4 : proved(c);
    case 86: /* a row at no multiple of 16 is refused */
        return (uintptr_t)c->row % 16 != 0 ? 16 : proved(c);
    default:
        return proved(c);
    }
}

uint64_t slipped_counts(long slip, struct call *c)
{
    uint64_t row[PLANDESK_ROW], returned;
    if (slip >= 80)
        return counted_otherwise(c, slip);
    if (slip >= 73)
        return written_on_refusal(c, slip);
    if (slip >= 60) {
        returned = proved_counts(c->a, c->a_len, NULL, 0);
        if (returned == 16 && c->row_len > c->a[2])
            returned = 0;
        uint64_t other = refused_otherwise(c, slip, returned);
        return other == returned ? proved(c) : other;
    }
    if (proved_counts(c->a, c->a_len, NULL, 0) != 16 || c->row_len <= c->a[2])
        return proved(c);
    struct plan p = parts(c);
    if (slip < 20)
        of_another_plan(c, slip, row);
    else
        count(&p, row);
    if (slip >= 20 && slip < 40)
        change(&p, slip, row);
    leave(c, slip, p.links, row);
    return 0;
}
