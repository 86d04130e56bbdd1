/* Asks questions of sheets whose last byte stands right before a page that cannot be read: guard < CASES.
 * A case is a line: the sheet's bytes in hex ('-' for none), then pairs QUESTION=ANSWER. */
#define _DEFAULT_SOURCE
#include <inttypes.h>
#include <stdio.h>
#include <stdlib.h>
#include <string.h>

#include "lent.h"
#include "r3.h"

int main(void)
{
    enum { ROOM = 1 << 17 };
    uint8_t *end = page_end(ROOM);
    char *line = NULL;
    size_t capacity = 0;
    unsigned long cases = 0, wrong = 0;
    while (getline(&line, &capacity, stdin) > 0) {
        char *word = strtok(line, " \n");
        size_t length = strcmp(word, "-") == 0 ? 0 : strlen(word) / 2;
        if (length > ROOM)
            return 2;
        uint8_t *sheet = end - length;
        for (size_t i = 0; i < length; i++) {
            unsigned byte;
            sscanf(word + 2 * i, "%2x", &byte);
            sheet[i] = (uint8_t)byte;
        }
        for (char *ask = strtok(NULL, " \n"); ask != NULL; ask = strtok(NULL, " \n")) {
            uint32_t question, expected;
            if (sscanf(ask, "%" SCNu32 "=%" SCNu32, &question, &expected) != 2)
                return 2;
            uint32_t got = r3_sheet(sheet, length, question);
            if (got != expected) {
                wrong++;
                printf("case %lu: question %" PRIu32 " gives %" PRIu32 ", not %" PRIu32 "\n", cases + 1, question, got, expected);
            }
        }
        cases++;
    }
    free(line);
    printf("guard: %lu sheets, %lu wrong answers\n", cases, wrong);
    return cases == 0 || wrong != 0;
}
