/* Makes each call that the header declares. It is compiled as C and as C++. */

#include "plandesk.h"

static int refused(uint64_t returned)
{
    return returned != 0;
}

int main(void)
{
    static const uint8_t plan[] = {2, 0, 1, 0, 0, 1, 0x00, 0xca, 0x9a, 0x3b};
    static const uint8_t nothing[8] = {0};
    uint8_t answer[PLANDESK_ANSWER] = {0}, work[PLANDESK_WORK] = {0}, shown[PLANDESK_GAME] = {0};
    uint64_t limit = PLANDESK_MOST_STEPS, row[PLANDESK_ROW] = {0};
    int wrong = refused(check(plan, sizeof plan));
    wrong |= refused(figure(plan, sizeof plan, NULL, 0, PLANDESK_ALL_NODES(2), limit, answer, sizeof answer));
    wrong |= refused(importance(plan, sizeof plan, NULL, 0, 0, limit, answer, sizeof answer));
    wrong |= refused(difference(plan, sizeof plan, plan, sizeof plan, NULL, 0, limit, answer, sizeof answer));
    wrong |= refused(sitting(plan, sizeof plan, NULL, 0, limit, nothing, sizeof nothing, answer, sizeof answer, work,
                             sizeof work));
    wrong |= refused(counts(plan, sizeof plan, row, PLANDESK_ROW)) || row[0] != 0 || row[1] != 1;
    wrong |= counts(plan, sizeof plan, row, 1) != 16 || PLANDESK_ROW != 25;
    wrong |= refused(game(plan, sizeof plan, shown, PLANDESK_GAME)) || shown[0] != 0 || shown[1] != 1;
    wrong |= shown[PLANDESK_GAME_LINKS] != 0 || shown[PLANDESK_GAME_NODES] + shown[PLANDESK_GAME_NODES + 1] != 1;
    wrong |= game(plan, sizeof plan, shown, 97) != 9 || PLANDESK_GAME != 98 || PLANDESK_GAME_LINKS != 2;
    wrong |= PLANDESK_GAME_NODES != 66;
    wrong |= !refused(check(plan, sizeof plan - 1));
    wrong |= figure(plan, sizeof plan, nothing, sizeof nothing, 3, limit, answer, sizeof answer) != 12;
    wrong |= figure(plan, sizeof plan, NULL, 0, 4, limit, answer, sizeof answer) != 14;
    wrong |= PLANDESK_ALL_NODES(1) != 1 || PLANDESK_ALL_NODES(31) != 0x7fffffff || PLANDESK_ALL_NODES(32) != 0xffffffff;
    wrong |= PLANDESK_TABLE != 2048;
    return wrong | (PLANDESK_ONE != 1000000000) | (PLANDESK_LENGTH != 2147483648u);
}
