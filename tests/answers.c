/* Runs r3_route on the stored cases and holds the answer, the sheet area and the work area against what they should be: answers < crates/cases/stdin.
 * tests/cases.py says what a case is. The input and the lent areas end right before pages that cannot be touched. */
#define _DEFAULT_SOURCE
#include <string.h>

#include "lent.h"
#include "r3.h"

enum { INPUT = 1 << 19, WORK = 1 << 17, SHEET = 1 << 14 };

/* a case's numbers: the group, which is not asked for here, lengths, the answer's seven, and how many work words are 0 after the call */
enum { LENGTH = 1, WORDS, BYTES, ANSWER, SHEET_BYTES = ANSWER + 6, ZEROS, NUMBERS };
static uint32_t number[NUMBERS];
static uint8_t *input_end, *sheet_end, expected[SHEET];
static uint32_t *work_end;

/* reads the next case; -1: it is cut short, or too large */
static int next(void)
{
    uint8_t front[4 * NUMBERS];
    size_t got = fread(front, 1, sizeof front, stdin);
    if (got < sizeof front)
        return got == 0 && feof(stdin) ? 0 : -1;
    for (int i = 0; i < NUMBERS; i++)
        number[i] = front[4 * i] | (uint32_t)front[4 * i + 1] << 8 | (uint32_t)front[4 * i + 2] << 16 | (uint32_t)front[4 * i + 3] << 24;
    if (number[LENGTH] > INPUT || number[WORDS] > WORK || number[BYTES] > SHEET || number[SHEET_BYTES] > SHEET)
        return -1;
    int whole = fread(input_end - number[LENGTH], 1, number[LENGTH], stdin) == number[LENGTH] &&
                fread(expected, 1, number[SHEET_BYTES], stdin) == number[SHEET_BYTES];
    return whole ? 1 : -1;
}

/* calls, with room for so many of the answer's numbers, and compares; the number that came back goes to got */
static int right(size_t room, uint32_t *got)
{
    static uint8_t before[INPUT];
    const uint8_t *input = input_end - number[LENGTH];
    uint8_t *sheet = sheet_end - number[BYTES];
    uint32_t *work = work_end - number[WORDS], answer[9];
    memcpy(before, input, number[LENGTH]);
    for (size_t i = 0; i < number[WORDS]; i++)
        work[i] = filler(i);
    for (size_t i = 0; i < number[BYTES]; i++)
        sheet[i] = (uint8_t)filler(i);
    memset(answer, 0xee, sizeof answer);
    *got = r3_route(input, number[LENGTH], work, number[WORDS], sheet, number[BYTES], answer, room);
    int same = *got == number[ANSWER] && memcmp(input, before, number[LENGTH]) == 0;
    for (size_t i = 0; i < 9; i++)
        same &= answer[i] == (i < 7 && i < room ? number[ANSWER + i] : 0xeeeeeeeeu);
    for (size_t i = 0; i < number[WORDS]; i++)
        same &= work[i] == (i < number[ZEROS] ? 0 : filler(i));
    for (size_t i = 0; i < number[BYTES]; i++)
        same &= sheet[i] == (i < number[SHEET_BYTES] ? expected[i] : (uint8_t)filler(i));
    return same;
}

int main(void)
{
    input_end = page_end(INPUT), sheet_end = page_end(SHEET);
    work_end = (uint32_t *)(void *)page_end(WORK * sizeof(uint32_t));
    unsigned long cases = 0, wrong = 0;
    int more;
    while ((more = next()) > 0) {
        uint32_t got;
        size_t room = cases % 10 == 3 ? cases / 10 % 8 : 9; /* short answers too */
        cases++;
        if (!right(room, &got)) {
            wrong++;
            printf("case %lu: number %u, expected %u\n", cases, (unsigned)got, (unsigned)number[ANSWER]);
        }
    }
    if (more < 0)
        printf("case %lu: cut short, or too large\n", cases + 1);
    printf("answers: %lu cases, %lu wrong\n", cases, wrong);
    return cases == 0 || wrong != 0 || more < 0;
}
