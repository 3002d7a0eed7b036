/* Makes calls for a test. Each call is read from standard input: eight 64-bit numbers (which call, limit, place or choice, and the
   lengths of the answer buffer, of plan A, of plan B or the saved work, of the work buffer, and of the table), and then the
   contents of these five. The number returned and the contents of both buffers are written to standard output. Every plan,
   table and buffer has a block of memory of its own, of just its size, so that a memory checker sees a byte read or written
   outside; a table of no bytes stands at no address. The row of the counts takes the answer buffer's place, eight bytes to a
   number. The game has the answer buffer and plan A alone. */

#include "plandesk.h"

#include <stdio.h>
#include <stdlib.h>

static uint8_t *block(size_t size)
{
    uint8_t *bytes = malloc(size);
    if ((bytes == NULL && size != 0) || fread(bytes, 1, size, stdin) != size)
        exit(2);
    return bytes;
}

static uint64_t made(const uint64_t *asked, const uint8_t *a, const uint8_t *b, const uint8_t *table, uint8_t *answer,
                     uint8_t *work)
{
    uint64_t limit = asked[1], place = asked[2], choice = asked[2];
    size_t room = asked[3], a_len = asked[4], b_len = asked[5], work_len = asked[6], table_len = asked[7];
    switch (asked[0]) {
    case 0:
        return check(a, a_len);
    case 1:
        return figure(a, a_len, table, table_len, choice, limit, answer, room);
    case 2:
        return importance(a, a_len, table, table_len, place, limit, answer, room);
    case 3:
        return difference(a, a_len, b, b_len, table, table_len, limit, answer, room);
    case 4:
        return sitting(a, a_len, table, table_len, limit, b, b_len, answer, room, work, work_len);
    case 5:
        return counts(a, a_len, (uint64_t *)answer, room / sizeof(uint64_t));
    default:
        return game(a, a_len, answer, room);
    }
}

int main(void)
{
    uint64_t asked[8];
    while (fread(asked, sizeof asked, 1, stdin) == 1) {
        uint8_t *answer = block(asked[3]);
        uint8_t *a = block(asked[4]);
        uint8_t *b = block(asked[5]);
        uint8_t *work = block(asked[6]);
        uint8_t *table = asked[7] == 0 ? NULL : block(asked[7]);
        uint64_t returned = made(asked, a, b, table, answer, work);
        if (fwrite(&returned, sizeof returned, 1, stdout) != 1 || fwrite(answer, 1, asked[3], stdout) != asked[3] ||
            fwrite(work, 1, asked[6], stdout) != asked[6])
            return 2;
        free(answer);
        free(a);
        free(b);
        free(work);
        free(table);
    }
    return fflush(stdout) == 0 ? 0 : 2;
}
