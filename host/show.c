/* Prints what a route sheet says: show [FILE]. With no FILE the sheet is read from standard input.
 * Exit status: 0 the sheet is shown; 1 it is refused; 2 it could not be read. */
#include <errno.h>
#include <stdio.h>
#include <stdlib.h>
#include <string.h>

#include "r3.h"

enum { NUMBER, COST, COUNT, FIRST_PLACE };
enum { ROUTE = 0, NO_ROUTE = 17, NO_SHEET = 18, NO_JOB = 19 };

/* All bytes of a stream; NULL if they cannot be had. */
static uint8_t *read_all(FILE *in, size_t *length)
{
    size_t room = 4096, used = 0;
    uint8_t *bytes = malloc(room);
    while (bytes != NULL) {
        size_t got = fread(bytes + used, 1, room - used, in);
        used += got;
        if (got == 0)
            break;
        if (used == room) {
            uint8_t *more = realloc(bytes, room *= 2);
            if (more == NULL)
                free(bytes);
            bytes = more;
        }
    }
    if (bytes != NULL && ferror(in)) {
        free(bytes);
        bytes = NULL;
    }
    *length = used;
    return bytes;
}

static int show(const uint8_t *sheet, size_t length)
{
    uint32_t number = r3_sheet(sheet, length, NUMBER);
    if (number == NO_SHEET) {
        fprintf(stderr, "show: refused, 18: not one sheet record of a fitting length\n");
        return 1;
    }
    if (number == NO_JOB) {
        fprintf(stderr, "show: refused, 19: no job can have these places and this cost\n");
        return 1;
    }
    if (number == NO_ROUTE) {
        printf("no route from %u\n", (unsigned)r3_sheet(sheet, length, FIRST_PLACE));
        return 0;
    }
    uint32_t count = r3_sheet(sheet, length, COUNT);
    printf("route, cost %u, places %u:", (unsigned)r3_sheet(sheet, length, COST), (unsigned)count);
    for (uint32_t i = 0; i < count; i++)
        printf(" %u", (unsigned)r3_sheet(sheet, length, FIRST_PLACE + i));
    printf("\n");
    return 0;
}

int main(int argc, char **argv)
{
    if (argc > 2) {
        fprintf(stderr, "usage: show [FILE]\n");
        return 2;
    }
    const char *name = argc == 2 ? argv[1] : "standard input";
    FILE *in = argc == 2 ? fopen(name, "rb") : stdin;
    if (in == NULL) {
        fprintf(stderr, "show: cannot open %s: %s\n", name, strerror(errno));
        return 2;
    }
    size_t length;
    uint8_t *sheet = read_all(in, &length);
    if (sheet == NULL) {
        fprintf(stderr, "show: cannot read %s\n", name);
        return 2;
    }
    int status = show(sheet, length);
    free(sheet);
    return status;
}
