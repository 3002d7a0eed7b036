/* The choice of all nodes of a plan file. */

#ifndef NODES_H
#define NODES_H

#include "plandesk.h"

/* A plan with another number of nodes is refused before its choice is looked at. */
static uint64_t all_nodes(const uint8_t *plan, size_t plan_len)
{
    unsigned count = plan_len < 2 ? 0 : plan[0] | plan[1] << 8;
    return count <= 32 ? PLANDESK_ALL_NODES(count) : 0;
}

#endif
