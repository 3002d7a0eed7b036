/* The calls by the rule in C (in_c.c), and the slips of the choice, of the joints, of the table and of chosen nodes that they
   may have. */

#ifndef IN_C_H
#define IN_C_H

#include <stddef.h>
#include <stdint.h>

enum {
    NO_SLIP,
    PRODUCT,             /* the largest product of the link counts */
    LATEST,              /* the latest of equal sums */
    PLAN_COUNTS,         /* the counts of the plan, not of the network left */
    LARGER_END,          /* the largest count of one end */
    SMALLER_END,         /* the largest count of the end with fewer links */
    SMALLEST_SUM,        /* the smallest sum */
    ALL_BY_FIRST,        /* the first link, always */
    CARRIED_BY_FIRST,    /* the first link, where splits are open */
    OLD_BY_FIRST,        /* the first link, where one is open that the first link's rule took */
    FIRST_REFUSED,       /* 11 refuses the first link */
    INNER_FIRST_REFUSED, /* 11 refuses the first link from the fourth open split on */
    MIXTURE_REFUSED,     /* 11 refuses a mixture */
    LARGEST_REFUSED,     /* 11 refuses the largest sum */
    ANY_PLACE,           /* 11 accepts any link's place */
    ANY_INNER_PLACE,     /* 11 accepts any link's place from the fourth open split on */
    OPEN_AT_LARGEST,     /* open splits are put at the link of the largest sum */
    OLD_STARTS_OVER,     /* work of the first link's rule starts over, its steps kept */
    STEPS_FORGOTTEN,     /* the steps are those of this sitting */
    OLD_STEPS_FORGOTTEN, /* the same for work of the first link's rule */
    PLACE_0_WRITTEN,     /* place 0 is written for every open split */
    PLAN_PLACE_WRITTEN,  /* the place in the plan is written */
    FOUR_BIT_COUNTS,     /* the counts are kept in four bits */
    FIVE_BIT_SUMS,       /* the sums are kept in five bits */
    NO_JOINTS,           /* a length has no joint */
    ONE_JOINT,           /* a length has one joint */
    THREE_JOINTS,        /* a length has three joints */
    ROUNDED_ONCE,        /* both joints are worked first, and then rounded */
    HIGH_DOWN,           /* high is rounded down */
    LOW_UP,              /* low is rounded up */
    HIGH_FIRST_DOWN,     /* high is rounded down after the first joint */
    LOW_FIRST_UP,        /* low is rounded up after the first joint */
    LOW_FOR_BOTH,        /* high is low */
    HIGH_FOR_BOTH,       /* low is high */
    LOW_ALONE,           /* high has no joint */
    HIGH_ALONE,          /* low has no joint */
    JOINTS_ON_UNITS,     /* values in units have joints */
    NO_JOINTS_AT_0,      /* length 0 has no joint */
    NO_JOINTS_AT_1,      /* length 1 has no joint */
    NO_JOINTS_AT_511,    /* length 511 has no joint */
    NO_JOINTS_FROM_256,  /* lengths from 256 on have no joint */
    JOINT_LESS,          /* J is one less */
    JOINT_MORE,          /* J is one more */
    FIRST_LINK_BARE,     /* the first link of the plan has no joint */
    LAST_LINK_BARE,      /* the last link of the plan has no joint */
    TABLE_IGNORED,       /* the built-in table serves */
    TABLE_BARE,          /* a length has no joint under a buyer's table */
    TABLE_ONE_JOINT,     /* a length has one joint under a buyer's table */
    NEXT_VALUE,          /* the value behind is read, of the last itself */
    VALUE_BEFORE,        /* the value before is read, of the first itself */
    HIGHEST_BYTE_FIRST,  /* a value is read with its highest byte first */
    THREE_BYTES,         /* a value is read in three bytes */
    VALUE_LESS,          /* a value above 0 is one less */
    LENGTHS_TO_255,      /* lengths are eight bits */
    BUILT_IN_AT_1,       /* the built-in value serves at length 1 */
    BUILT_IN_AT_511,     /* at length 511 */
    BUILT_IN_FROM_256,   /* from length 256 on */
    BUILT_IN_FOR_0,      /* for a value of 0 */
    BUILT_IN_IF_LESS,    /* where it is less */
    BUILT_IN_IF_MORE,    /* where it is more */
    BUILT_IN_FOR_LOW,    /* for low */
    BUILT_IN_FOR_HIGH,   /* for high */
    BUILT_IN_AT_FIRST,   /* at the first link of the plan */
    BUILT_IN_AT_LAST,    /* at the last link of the plan */
    ANY_LENGTH,          /* a table may have any length; a shorter one is taken for none */
    LONGER_TABLE,        /* a table may be longer */
    ONE_BYTE_MORE,       /* a table may have 2,049 bytes */
    REST_OF_A_VALUE,     /* a table may have 2,051 bytes at most */
    TWICE_AS_LONG,       /* a table may have 4,096 bytes */
    REST_ALONE,          /* a table of 1 to 3 bytes is taken for none */
    EMPTY_REFUSED,       /* a table of no bytes is refused by 12 */
    FIRST_UNTESTED,      /* the first value is not tested */
    FIRST_MORE,          /* S + 1 may be first */
    FIRST_LESS,          /* less than S may be first */
    RISE_AT_1,           /* value 1 may be above the one before */
    RISE_AT_256,         /* value 256 may be */
    RISE_AT_511,         /* value 511 may be */
    RISES_UNTESTED,      /* every value may be */
    RISE_OF_1,           /* every value may be by one */
    RISES_TO_S,          /* every value may be, up to S */
    SIGNED_VALUES,       /* values are compared as signed numbers */
    EQUAL_REFUSED,       /* equal neighbours are refused by 13 */
    ZERO_REFUSED,        /* a value of 0 is refused by 13 */
    PLACE_NAMED,         /* 13 names the place */
    TABLE_BEFORE_7,      /* 12 and 13 are tested before 7 */
    TABLE_BEFORE_9,      /* before 9 */
    TABLE_AFTER_PLAN,    /* after the causes of plan A */
    ONLY_13_AFTER_PLAN,  /* 13 is, 12 is not */
    TABLE_LAST,          /* after all others */
    IF_LENGTHS_12,       /* 12 is tested where plan A has a length */
    IF_LENGTHS_13,       /* 13 is */
    NOT_IF_COMPLETE,     /* neither is where saved work is complete */
};

/* Slips of the rule with chosen nodes, which are made in figure alone. But for the first it is the rule for all nodes too. */
enum {
    SOME_BY_CHOSEN = -1,
    NO_CHOSEN_SLIP,
    UNCHOSEN_END_FACTOR,     /* an unchosen end leaves its factor */
    CHOSEN_END_BARE,         /* a chosen end leaves none */
    NEIGHBOUR_NOT_CHOSEN,    /* the neighbour of a chosen end does not become chosen */
    NEIGHBOUR_ALWAYS_CHOSEN, /* that of an unchosen end becomes chosen too */
    UNCHOSEN_ENDS_LEFT,      /* unchosen ends are left */
    CHOSEN_ENDS_LEFT,        /* chosen ends are left */
    UNCHOSEN_SERIES_FACTOR,  /* an unchosen node of two links is reduced as a chosen one */
    CHOSEN_SERIES_BARE,      /* a chosen one is reduced as an unchosen one */
    NO_NEIGHBOUR_CHOSEN,     /* a chosen one is reduced whatever its neighbours */
    ONE_NEIGHBOUR_CHOSEN,    /* a chosen one is reduced if one of its neighbours is chosen */
    UNCHOSEN_SERIES_LEFT,    /* unchosen ones are left */
    CHOSEN_SERIES_LEFT,      /* chosen ones are left */
    UNCHOSEN_SERIES_FIRST,   /* unchosen ones go ahead of chosen ones */
    CHOSEN_SERIES_FIRST,     /* chosen ones go ahead of unchosen ones */
    LINE_LOW_UP,             /* the low of p * q / S is rounded up */
    LINE_HIGH_DOWN,          /* its high is rounded down */
    PIECES_LEFT_IN,          /* pieces without a chosen node are left in */
    LATER_PIECES_LEFT_IN,    /* those that come off at a broken link are */
    OTHER_PIECES_0,          /* links in a piece without a chosen node give 0 */
    LATER_PIECES_0,          /* those of a piece that comes off at a broken link do */
    ONE_NODE_LEFT,           /* one chosen node gives S only where no link is left */
    MERGED_IF_BOTH,          /* a merged node is chosen if both were */
    MERGED_IF_SMALLER,       /* if the smaller was */
    MERGED_IF_LARGER,        /* if the larger was */
    MERGED_ALWAYS,           /* always */
};

/* A slip of the joints or of the table may be made in one place alone, whose number stands before the slip's last two digits. */
enum { EVERYWHERE, IN_FIGURE, IN_IMPORTANCE, IN_PLAN_A, IN_PLAN_B, IN_SITTING, IN_CARRIED };

enum { CHECK, FIGURE, IMPORTANCE, DIFFERENCE, SITTING, COUNTS, GAME };

/* Of a sitting b is the saved work. Of the counts the answer is the row's bytes. */
struct call {
    long which;
    const uint8_t *a, *b, *table;
    size_t a_len, b_len, table_len;
    uint64_t place, choice, limit;
    uint8_t *answer;
    size_t room;
    uint8_t *work;
    size_t work_room;
    uint64_t *row;
    size_t row_len;
};

/* Makes the call by the rule in C, with a slip of the first kinds and one of chosen nodes. */
uint64_t in_c(long slip, long chosen_slip, const struct call *c);

/* Makes the call counts with this slip (slips_of_counts.c). */
uint64_t slipped_counts(long slip, struct call *c);

/* Makes the call game with this slip (slips_of_game.c). */
uint64_t slipped_game(long slip, struct call *c);

/* Makes the call game by a search in C, with this slip (slips_of_search.c). */
uint64_t searched_game(long slip, struct call *c);

#endif
