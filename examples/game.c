/* Plays cutter and keeper on a plan: game PLAN [cutter|keeper [first|second]]. Prints who can force the win, and the two trees or
   the grouping that show it. The side that is named is the person's, who opens unless second is said; each line of standard input is
   the number of a link. The program plays the other side: by the trees or the grouping once they show that it wins, and until then
   it asks the library about the plan as it stands. Exit status: 0 if it is answered or played to the end, 1 if the plan is refused, 2
   if the words are wrong, the file cannot be read or the input ends early. */

#define PROGRAM "game"

#include "contents.h"
#include "moves.h"
#include "refusal.h"

/* Reads a line of standard input and keeps its first 79 characters, a NUL as a question mark, without the carriage return that may
   end it. Whether they are digits alone. */
static int read_number(char *line)
{
    size_t length = 0;
    int c = getchar();
    if (c == EOF)
        fail("standard input", "ended before all links were used");
    for (; c != '\n' && c != EOF; c = getchar())
        if (length < 79)
            line[length++] = c == 0 ? '?' : c;
    length -= length > 0 && line[length - 1] == '\r';
    line[length] = 0;
    return length > 0 && strspn(line, "0123456789") == length;
}

/* The number of an open link, from a line of standard input; asks again where it is none. */
static int persons(const struct play *p, const char *word)
{
    char line[80];
    for (;;) {
        printf("Which link do you %s?\n", word);
        fflush(stdout);
        if (!read_number(line))
            printf("'%s' is not a number\n", line);
        else if (strlen(line) > 2 || atoi(line) >= p->links)
            printf("there is no link %s, they are 0 to %d\n", line, p->links - 1);
        else if (p->done[atoi(line)] != OPEN)
            printf("link %s is %s already\n", line, p->done[atoi(line)] == CUT ? "cut" : "safe");
        else
            return atoi(line);
    }
}

static void play(struct play *p, int person, int turn)
{
    int link = -1, piece[32];
    for (int used = 0; used < p->links; used++, turn = !turn) {
        if (turn == person)
            link = persons(p, turn == CUTTER ? "cut" : "make safe");
        else
            link = turn == CUTTER ? cutters(p) : keepers(p, link);
        p->done[link] = turn == CUTTER ? CUT : SAFE;
        printf("%s: link %d, %d to %d, is %s\n", turn == person ? "you" : "program", link, p->ends[link][0], p->ends[link][1],
               turn == CUTTER ? "cut" : "safe");
    }
    int kept = pieces(p, 0, piece) == 1;
    printf("The safe links %s all cabinets: %s won, the %s.\n", kept ? "connect" : "do not connect",
           (kept ? KEEPER : CUTTER) == person ? "you have" : "the program has", kept ? "keeper" : "cutter");
}

/* Prints which of so many places have this mark. */
static void print_places(const char *name, int number, const char *of, const int *marks, int count)
{
    printf("%s %d: %s", name, number, of);
    for (int i = 0; i < count; i++)
        if (marks[i] == number)
            printf(" %d", i);
    printf("\n");
}

static void print_shown(const struct play *p, const uint8_t *answer)
{
    int groups = 0, between = 0;
    const char *sides[] = {"cutter", "keeper"};
    printf("cutter opens: %s wins\nkeeper opens: %s wins\n", sides[answer[0]], sides[answer[1]]);
    for (int tree = 1; tree <= 2 && answer[0] == 1; tree++)
        print_places("tree", tree, "links", p->tree, p->links);
    for (int v = 0; v < p->nodes && answer[0] == 0; v++)
        groups = p->group[v] >= groups ? p->group[v] + 1 : groups;
    for (int group = 0; group < groups; group++)
        print_places("group", group, "cabinets", p->group, p->nodes);
    for (int i = 0; i < p->links; i++)
        between += leads_between(p->group, p, i);
    if (groups > 0)
        printf("links between the %d groups: %d, fewer than 2 * (%d - 1) = %d\n", groups, between, groups, 2 * (groups - 1));
}

int main(int count, char **words)
{
    struct contents plan;
    struct play p = {0};
    uint8_t answer[PLANDESK_GAME];
    int keeps = count > 2 && strcmp(words[2], "keeper") == 0, second = count > 3 && strcmp(words[3], "second") == 0;

    if (count < 2 || count > 4 || (count > 2 && !keeps && strcmp(words[2], "cutter") != 0) ||
        (count > 3 && !second && strcmp(words[3], "first") != 0)) {
        fprintf(stderr, "usage: game PLAN [cutter|keeper [first|second]]\n");
        return 2;
    }
    read_file(words[1], &plan);
    uint64_t refused = check(plan.bytes, plan.length);
    if (refused != 0) {
        print_refusal("game", refused);
        return 1;
    }
    begin(&p, plan.bytes);
    ask(&p, answer);
    p.is_sure = !keeps && answer[0] == 1;
    print_shown(&p, answer);
    if (count > 2)
        play(&p, keeps ? KEEPER : CUTTER, keeps != second ? KEEPER : CUTTER);
    return 0;
}
