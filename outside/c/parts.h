/* A plan that is accepted, by its parts, and slips that are alike, for the slips of the counts and of the game. */

#ifndef PARTS_H
#define PARTS_H

#include "in_c.h"

#include <sched.h>
#include <string.h>

uint64_t proved_check(const uint8_t *plan, size_t plan_len);

#define MOST_LINKS 64
#define LENGTH 2147483648u
#define ONE 1000000000u

struct plan {
    unsigned nodes, links;
    uint8_t ends[MOST_LINKS][2];
    uint32_t values[MOST_LINKS];
};

static inline struct plan parts(const struct call *c)
{
    struct plan p = {.nodes = c->a[0], .links = c->a[2]};
    memcpy(p.ends, c->a + 4, 2 * p.links);
    for (unsigned i = 0; i < p.links; i++)
        for (int k = 0; k < 4; k++)
            p.values[i] |= (uint32_t)c->a[4 + 2 * p.links + 4 * i + k] << 8 * k;
    return p;
}

static inline int is_loop(const struct plan *p, unsigned i)
{
    return p->ends[i][0] == p->ends[i][1];
}

static inline int side_by_side(const struct plan *p, unsigned i, unsigned j)
{
    const uint8_t *a = p->ends[i], *b = p->ends[j];
    return !is_loop(p, i) && ((a[0] == b[0] && a[1] == b[1]) || (a[0] == b[1] && a[1] == b[0]));
}

static inline int has_one_before(const struct plan *p, unsigned i)
{
    for (unsigned j = 0; j < i; j++)
        if (side_by_side(p, i, j))
            return 1;
    return 0;
}

static inline int is_linked(const struct plan *p, unsigned node)
{
    for (unsigned i = 0; i < p->links; i++)
        if (p->ends[i][0] == node || p->ends[i][1] == node)
            return 1;
    return 0;
}

static inline void renamed(struct plan *p, unsigned from, unsigned to)
{
    for (unsigned i = 0; i < p->links; i++)
        for (int k = 0; k < 2; k++)
            if (p->ends[i][k] == from)
                p->ends[i][k] = to;
}

/* The plan is kept where other threads keep theirs. */
static inline uint64_t kept(const struct call *c, uint64_t (*proved)(const struct call *c))
{
    static uint8_t plan[4 + 6 * MOST_LINKS];
    struct call other = *c;
    if (proved_check(c->a, c->a_len) != 0)
        return proved(c);
    memcpy(plan, c->a, c->a_len);
    other.a = plan;
    sched_yield();
    return proved(&other);
}

/* The stack is overrun. */
static inline uint64_t deep(const struct call *c, uint64_t (*proved)(const struct call *c))
{
    volatile uint8_t taken[512 * 1024];
    for (size_t i = 0; i < sizeof taken; i += 512)
        taken[i] = 1;
    uint64_t returned = proved(c);
    return taken[512] == 1 ? returned : 1;
}

#endif
