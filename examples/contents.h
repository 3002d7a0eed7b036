/* The bytes of a plan file, and how a program ends that cannot read it. The program has its name in PROGRAM. */

#ifndef CONTENTS_H
#define CONTENTS_H

#include <errno.h>
#include <stdint.h>
#include <stdio.h>
#include <stdlib.h>
#include <string.h>

/* A byte more than the longest plan: what is longer is refused for its length. */
struct contents {
    uint8_t bytes[389];
    size_t length;
};

static void fail(const char *what, const char *why)
{
    fprintf(stderr, PROGRAM ": %s: %s\n", what, why);
    exit(2);
}

static void read_file(const char *name, struct contents *to)
{
    FILE *file = fopen(name, "rb");
    if (file == NULL)
        fail(name, strerror(errno));
    to->length = fread(to->bytes, 1, sizeof to->bytes, file);
    if (ferror(file))
        fail(name, strerror(errno));
    fclose(file);
}

#endif
