/* The plan calculator's seven calls.

   A plan file, all numbers little-endian: n (16 bits), m (16 bits); m pairs of one-byte ends, numbered from 0; m values
   of 32 bits. Its length is 4 + 6 * m; n is 1 to 32, m is 0 to 64. A value of 0 to S = 1,000,000,000 is a link's chance
   in units of one part in S. A value of 2,147,483,648 + k, k from 0 to 511, is a length of k hundred metres: a cable with
   a joint at each end, also where k is 0. It stands for the chance T[k] * J * J / (S * S) units, with J = 999,950,000,
   T[0] = S, and each next T the one before * 999,700,000 / S, rounded down. The calculator works with a low and a high
   value of it, rounded down and up after each joint: 999,900,002 and 999,900,003 for k = 0, 999,600,032 and 999,600,033
   for k = 1. A chance in units is taken as it is, with its joints in it.

   A table, which every call but check, counts and game is handed, is a buyer's own rating by length: 512 values of 32
   bits, little-endian, so 2,048 bytes, the value at place k for a length of k hundred metres. The first is S, and none is
   above the one before; equal ones will do, and so will 0. Within that call T[k] is the table's value at k, with the joints
   as above, for every length, in a difference for those of both plans. With a table of no bytes the T above serves, which
   is built in.

   A choice, which figure is handed, says which nodes count: bit i, of value 2 to the power i, names node i. The chosen
   nodes hang together if the sound links lead from each of them to every other, over any nodes, chosen or not; one node
   alone always does. With all nodes chosen, by 2 to the power n less 1, every node has to reach every other. Importance,
   difference, sitting, counts and game take no choice and mean all nodes.

   An answer, but for that of game, is four 32-bit little-endian numbers, 16 bytes: low, high, steps, finished (1 or 0).
   They fill the first 16 bytes of the answer buffer; later bytes keep their contents. The exact figure, in units, is no less
   than low and no more than high, finished or not; exact means of the chances as they stand above, those of lengths not
   rounded. Where a figure is finished, high is at most 2 * m + 4 * n + 4 * L above low, L being the number of links given by
   length; a finished importance or difference is at most as wide as its two evaluations together may be. All this holds
   under every table and every choice that is accepted. An answer of game is 98 bytes, which stand at the call.

   A row, which counts is handed, is a buffer of 64-bit numbers, as the machine has them; its length counts numbers, not
   bytes.

   Each call returns 0 if it is accepted, and otherwise the number of the first cause of refusal that it meets, in the order
   of this list. A refused call leaves the whole answer buffer as it was, the whole work buffer and the whole row.

     7             the limit is above 1,000,000
     9             the answer buffer is under 16 bytes (98 for game), or the work buffer under 776
     12            the table has neither 0 nor 2,048 bytes
     13            the table's first value is not S, or a value is above the one before
     1             the file is under 4 bytes
     2             n is 0 or above 32
     3             m is above 64
     4             the length is not 4 + 6 * m
     5 + 256 * i   link i has an end n or above
     6 + 256 * i   link i has a value from S + 1 to 2,147,483,647, or k above 511
     14            the choice is 0, or names node n or above
     8             the link place is m or above
     10            the saved work has a wrong form
     11            an open split of the saved work is not one that the rule comes to on this plan, now or before
     15            the plan has more than 24 links
     16            the row has fewer than m + 1 numbers

   Links are tested in order, 5 before 6 at each. 12 and 13 are tested also where the plan has no length. 14 is of figure
   alone, and of all 64 bits of the choice; 8 is of importance alone; the work buffer, 10 and 11 are of sitting alone; 15
   and 16 are of counts alone, which has 1 to 6 beside them and no other; game has 9 and then 1 to 6 and no other; check has
   1 to 6 alone.

   A call asks that each pointer stands for as many bytes, that of a row for as many numbers, as the length behind it says
   (any pointer will do where that is 0), and that a buffer that is written to shares no byte with another buffer, a plan,
   a table or saved work. It allocates nothing and keeps nothing, so it is safe from several threads at once; each needs a
   stack of 512 KiB for it. The library is compiled for processors that have x86-64-v2 (SSE4.2 and POPCNT), and does not
   look whether the one at hand has it.

   How long a call takes goes by its steps. The times here were taken with the library as an older compiler made it, and
   not anew. At the limit of 1,000,000 the mesh of 32 nodes and 64 links (plans/mesh.plan) took figure about 0.4 seconds
   on one core of x86-64, and importance and difference, which work two networks, up to 0.8. The slowest of 400 random
   plans took about as long a step. A sitting takes about as long as a figure under its limit:
   about 0.4 seconds for a first sitting of the mesh at 1,000,000. A later one walks down the open splits first, which
   with 55 of them took less than a ten-thousandth of a second. A table took figure less than a millionth of a second
   more. A call cannot be stopped; a smaller limit ends it sooner. Counts and game have no steps and no limit: the
   slowest plan that was found took counts about a hundredth of a second, and game about a five-hundredth. */

#ifndef PLANDESK_H
#define PLANDESK_H

#include <stddef.h>
#include <stdint.h>

#ifdef __cplusplus
extern "C" {
#endif

/* The bytes of an answer, the bytes of an answer of game, the place in it of the first link's byte and of the first node's,
   the bytes of a work buffer, the bytes of a table, the numbers of a row that is always enough, the largest limit, one in
   units, the value of a length of 0, and the choice of all of n nodes. */
#define PLANDESK_ANSWER 16
#define PLANDESK_GAME 98
#define PLANDESK_GAME_LINKS 2
#define PLANDESK_GAME_NODES 66
#define PLANDESK_WORK 776
#define PLANDESK_TABLE 2048
#define PLANDESK_ROW 25
#define PLANDESK_MOST_STEPS 1000000
#define PLANDESK_ONE 1000000000
#define PLANDESK_LENGTH 2147483648u
#define PLANDESK_ALL_NODES(n) (((uint64_t)1 << (n)) - 1)

/* Whether the plan is accepted. Returns 0, 1, 2, 3, 4, 5 + 256 * i or 6 + 256 * i. */
uint64_t check(const uint8_t *plan, size_t plan_len);

/* The chance that the chosen nodes hang together, within so many steps at most. Low and high are 0 to S; steps is at
   most the limit. One chosen node gives S and S; chosen nodes that no path of links joins, whatever its chance, give 0
   and 0; both are finished with 0 steps. Fewer chosen nodes may take more steps.
   Returns 0, or 7, 9, 12, 13, 1 to 4, 5 + 256 * i, 6 + 256 * i or 14. */
uint64_t figure(const uint8_t *plan, size_t plan_len, const uint8_t *table, size_t table_len, uint64_t choice,
                uint64_t limit, uint8_t *answer, size_t answer_len);

/* The chance that every node can reach every other with the link at this place sound, less that with it broken. Low and
   high are 0 to S. Each of the two evaluations gets the whole limit; steps is their sum, and finished is 1 if both are.
   Returns 0, or 7, 9, 12, 13, 1 to 4, 5 + 256 * i, 6 + 256 * i or 8. */
uint64_t importance(const uint8_t *plan, size_t plan_len, const uint8_t *table, size_t table_len, uint64_t place,
                    uint64_t limit, uint8_t *answer, size_t answer_len);

/* The chance of plan A less that of plan B, both under the one table. Low and high are -S to S, signed 32-bit numbers in
   two's complement. Each of the two evaluations gets the whole limit; steps is their sum, and finished is 1 if both are.
   Returns 0, or 7, 9, 12, 13, plan A's 1 to 4, 5 + 256 * i or 6 + 256 * i, or plan B's plus 20: 21 to 24, 25 + 256 * i or
   26 + 256 * i. */
uint64_t difference(const uint8_t *plan_a, size_t plan_a_len, const uint8_t *plan_b, size_t plan_b_len,
                    const uint8_t *table, size_t table_len, uint64_t limit, uint8_t *answer, size_t answer_len);

/* The figure of all nodes, carried on from saved work and set aside again: answer gets the answer so far, work the saved
   work for the next sitting. The first sitting of a plan is handed eight zero bytes, each later one what the one before
   wrote, at its length, and the same table.

   A sitting takes at most its limit in steps, and at most what the steps so far leave of 1,000,000: a total past
   1,000,000 is cut and not refused. The steps of the answer are the total so far. A first sitting answers as figure with
   all nodes chosen does under its limit. Sittings one after the other end with the answer of that figure under the sum
   of their limits, or under 1,000,000 if that is less, and with the saved work of one first sitting under that limit.
   Work stopped by the 1,000,000 stays begun, and later sittings give the same answer and the same saved work.

   The rule splits on the link whose two ends have the most links together, the earliest of such links; before, it split
   on the first link. Work set aside then is carried on, of a plan without lengths: its open splits and the figures of
   their sound branches remain, and each split that is not yet taken is by the rule of now. So is work in which sittings
   of then and of now took turns. Its answers enclose the exact figure and are as narrow where they are finished, but
   neither their numbers nor their steps need be those of figure. From the same saved work a larger limit gives a pair
   within that of a smaller one, and sittings end as one under their total does. Such a sitting is unfinished exactly if
   the splits still to take are more than its limit, or come to more than 1,000,000 with the steps so far.

   Saved work, all numbers little-endian, with c open splits:

     byte                bits      holds
     0                   16        c, 0 to 64
     2                   16        the state: 0 begun, 1 complete
     4                   32        the steps so far, 0 to 1,000,000
     if it is begun, for the open splits i = 0 to c - 1, the outermost first:
     8 + 4 * i           32        the place of its link, counted from 0 among the links then left
     8 + 4 * c + 8 * i   32, 32    the low and the high of its sound branch, or 1 and 0 while that branch runs
     if it is complete, where c is 0:
     8                   4 x 32    the answer

   So 8 + 12 * c bytes are written where the work is begun and 24 where it is complete. 776 are always enough, and the
   bytes behind those written keep their contents. A run is set aside at the first split for which no step is left, so a
   limit of 0 writes the same begun work again, the eight zero bytes too; but a plan that needs no split is complete at
   once. Complete work is not worked again, whatever the limit: its last 16 bytes are the answer, and its 24 bytes are
   written as they came.

   Saved work is refused by 10 if its length is not 8 + 12 * c where it is begun, or 24 where it is complete (so a whole
   buffer handed back is refused, unless c is 64); if c is above 64, or above 0 where it is complete; if the state is
   neither 0 nor 1; if the steps are above 1,000,000; if a low or a high of an open split is above S, or a low is above
   its high, but for 1 and 0. It is refused by 11 if the rule, followed from the plan, comes to no split where one is
   open, or if its place there is neither that of the rule of now nor 0, that of the rule of before, each open split by
   itself; 1 and 0 say that the next open split lies in the sound branch, every other pair that it lies in the broken one.
   All of 10 is tested before 11.

   What is said of answers holds for saved work that came from earlier sittings of this very plan under this very table.
   Other bytes are tested as far as 10 and 11 say and no further: not whether the steps go with the open splits, nor
   whether the figures of an open split or the 16 bytes of complete work are right. They get an answer or a refusal by 10
   or 11, and no more is promised of it. Saved work carries nothing of its table, so work that was set aside under another
   one is among these other bytes: it counts as made up by hand. So does work of a plan with lengths that was set aside
   when a length stood for T[k] alone, without joints; nothing in it tells its age, and such a plan is to be begun anew.

   Returns 0, or 7, 9, 12, 13, 1 to 4, 5 + 256 * i, 6 + 256 * i, 10 or 11. A refused sitting leaves both buffers as they
   were. */
uint64_t sitting(const uint8_t *plan, size_t plan_len, const uint8_t *table, size_t table_len, uint64_t limit,
                 const uint8_t *saved, size_t saved_len, uint8_t *answer, size_t answer_len, uint8_t *work,
                 size_t work_len);

/* How many sets of links connect all nodes, by the number of their links: entry i, at place i of the row, is the number of
   sets of just i links with which every node can reach every other, for i from 0 to m. These are the exact numbers behind
   the plan's reliability polynomial: where all links have one chance p, the chance that every node can reach every other
   is the sum of entry i * p^i * (1 - p)^(m - i).

   Two sets differ if a link is in one of them alone. Each link counts for itself, also one of several between the same
   two nodes, and also a loop, which connects nothing: with one node and m loops entry i is the number of all sets of i out
   of m. The values of the links play no part, a chance of 0 as little as a length, but they are tested as in every plan.
   The empty set connects a plan of one node, so entry 0 is 1 there and otherwise 0; where all links together do not
   connect the nodes, all entries are 0. No entry is above 2,704,156, the number of all sets of 12 out of 24. Four nodes,
   each two joined by a link, give 0, 0, 0, 16, 15, 6, 1.

   The row may be longer than m + 1 numbers; those behind place m keep their contents. 25 numbers are always enough.
   Returns 0, or 1 to 4, 5 + 256 * i, 6 + 256 * i, 15 or 16. A refused call leaves the row as it was. */
uint64_t counts(const uint8_t *plan, size_t plan_len, uint64_t *row, size_t row_len);

/* Who can force the win at cutter and keeper. The two move in turn until all links are used: the cutter removes a link that is
   not used yet, the keeper makes one safe. The keeper wins if the safe links connect all nodes, otherwise the cutter. A side can
   force the win if it has a play that wins whatever the other does; one of the two always has. With one node the keeper has
   won. The values of the links play no part, but are tested as in every plan.

     byte      holds
     0         who can force the win if the cutter opens: 1 the keeper, 0 the cutter
     1         the same if the keeper opens; it is 1 wherever byte 0 is
     2 + i     of link i: 1 if it is in the first tree, 2 if it is in the second, else 0
     66 + v    of node v: the number of its group, 0 to g - 1

   Where byte 0 is 1 two trees are shown: n - 1 links marked 1 that connect all nodes, and n - 1 marked 2 that do; no link is in
   both. They are why the keeper wins, and how: after each of his moves the safe links and the unused ones of the first tree
   connect all nodes, and so do the safe links and the unused ones of the second. When the cutter removes a link of a tree, the
   safe links and that tree's unused ones may fall into two sides; then the other tree has an unused link that leads from side
   to side, and the keeper makes that one safe. If they do not, or if the keeper opens, any link will do. In the end no link is
   unused, and the safe links alone connect all nodes.

   Where byte 0 is 0, also where the keeper wins if he opens, a grouping is shown: every node is in one of g groups, none of
   them empty, and fewer than 2 * (g - 1) links lead from group to group. It is why the cutter wins, and how: he opens and
   removes links between groups as long as there are any. So the keeper gets at most half of them, fewer than g - 1,
   and g groups cannot be connected by fewer than g - 1 links. Where the keeper opens and byte 1 is 0, there is such a grouping
   again after each link that he may make safe first, of the plan with that link's ends made one node.

   What is not shown is 0: all link bytes where there is a grouping, all node bytes where there are trees, and the bytes of
   links from m and of nodes from n on. One node gives 1, 1 and zeros, also where it has loops. There may be other trees or
   groupings as good as those that are shown. Four nodes, each two joined by a link, give 1 and 1, with three links in each
   tree; without one of those links 0 and 1, with a grouping such as each node alone, 5 links between 4 groups.

   The buffer may be longer than 98 bytes; those behind keep their contents. Returns 0, or 9, 1 to 4, 5 + 256 * i or
   6 + 256 * i. A refused call leaves the whole buffer as it was. */
uint64_t game(const uint8_t *plan, size_t plan_len, uint8_t *answer, size_t answer_len);

#ifdef __cplusplus
}
#endif

#endif
