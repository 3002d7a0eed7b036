/* Works a plan in sittings of 1,000 steps: sittings PLAN SAVED [compare]. Each run is one sitting. It carries on the work
   that the file SAVED holds, or begins if there is no such file, prints the answer so far and writes the file anew, by
   way of SAVED.new. With the word compare it also prints what one run of as many steps answers. Exit status: 0 if all is
   answered, 1 if a call is refused, 2 if the words are wrong or a file cannot be read or written. */

#include "nodes.h"
#include "print.h"

#include <errno.h>
#include <stdlib.h>
#include <string.h>

/* A byte more than the longest plan and the longest saved work: what is longer is refused for its length. */
struct contents {
    uint8_t bytes[PLANDESK_WORK + 1];
    size_t length;
};

static void fail(const char *name)
{
    fprintf(stderr, "sittings: %s: %s\n", name, strerror(errno));
    exit(2);
}

static void read_file(FILE *file, const char *name, struct contents *to)
{
    if (file == NULL)
        fail(name);
    to->length = fread(to->bytes, 1, sizeof to->bytes, file);
    if (ferror(file))
        fail(name);
    fclose(file);
}

/* Eight zero bytes if there is no file. */
static void read_saved(const char *name, struct contents *saved)
{
    FILE *file = fopen(name, "rb");
    if (file == NULL && errno == ENOENT) {
        memset(saved->bytes, 0, 8);
        saved->length = 8;
        return;
    }
    read_file(file, name, saved);
}

/* Begun work has 12 bytes for each open split, complete work has an answer. It is written beside the file and then takes
   its name, so that the file keeps the work before if there is no room for this. */
static void write_saved(const char *name, const uint8_t *work)
{
    size_t open = work[0] | work[1] << 8, length = work[2] == 0 ? 8 + 12 * open : 8 + PLANDESK_ANSWER;
    char *beside = malloc(strlen(name) + sizeof ".new");
    if (beside == NULL)
        fail(name);
    FILE *file = fopen(strcat(strcpy(beside, name), ".new"), "wb");
    if (file == NULL || fwrite(work, 1, length, file) != length || fclose(file) != 0 || rename(beside, name) != 0)
        fail(beside);
    free(beside);
}

int main(int count, char **words)
{
    struct contents plan, saved;
    uint8_t answer[PLANDESK_ANSWER], work[PLANDESK_WORK];
    uint64_t refused;

    if (count < 3 || count > 4 || (count == 4 && strcmp(words[3], "compare") != 0)) {
        fprintf(stderr, "usage: sittings PLAN SAVED [compare]\n");
        return 2;
    }
    read_file(fopen(words[1], "rb"), words[1], &plan);
    read_saved(words[2], &saved);

    refused = sitting(plan.bytes, plan.length, NULL, 0, 1000, saved.bytes, saved.length, answer, sizeof answer, work,
                      sizeof work);
    print("so far", refused, answer);
    if (refused != 0)
        return 1;
    write_saved(words[2], work);

    if (count == 4) {
        refused = figure(plan.bytes, plan.length, NULL, 0, all_nodes(plan.bytes, plan.length), number(answer + 8), answer,
                         sizeof answer);
        print("in one run", refused, answer);
    }
    return refused == 0 ? 0 : 1;
}
