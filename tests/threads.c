/* Runs the exported calls in several threads at once, each on just the stack that r3.h names: the longest route that a map can have, the reading of
 * its sheet, the writing of its map and a report of a day with two such routes, without waits, and with waits, factors and a default. Every thread
 * must come to the same answer, which is known. */
#define _DEFAULT_SOURCE
#include <pthread.h>
#include <string.h>

#include "lent.h"
#include "r3.h"

enum { PLACES = 4096, COST = 65535, THREADS = 4, CALLS = 8, ROUTE_STACK = 320 << 10, SHEET_STACK = 64 << 10, WRITE_STACK = 64 << 10 };
enum { REPORT_STACK = 448 << 10, LONGEST_DAY = 65536 };
enum { HEAD = 8, LANE = 12, WAIT = 8, FACTORS = 20, DEFAULT = 8, JOB = 14 };
enum { INPUT = HEAD + LANE * (PLACES - 1) + WAIT * PLACES + FACTORS + DEFAULT + JOB };

static const uint32_t factors[] = {1, 1, 2, 3, 16, 16, 16, 16};
static uint8_t input[INPUT], written[INPUT]; /* the map, and what the map writer makes of it */
static size_t length;

struct Job {
    uint8_t sheet[R3_BYTES], output[INPUT];
    uint32_t work[R3_WORDS_OF(PLACES, PLACES - 1)];
    struct r3_tally tally[R3_RECORDS];
    int right;
};

static void put16(uint8_t *out, uint32_t x)
{
    out[length++] = (uint8_t)x;
    out[length++] = (uint8_t)(x >> 8);
}

static void put_record(uint8_t *out, uint32_t kind, const uint32_t *fields, uint32_t count)
{
    put16(out, 2 * count);
    put16(out, kind);
    for (uint32_t i = 0; i < count; i++)
        put16(out, fields[i]);
}

/* what a map has once: factors, and a default that is the cost of an arc */
static void put_once(uint8_t *out)
{
    put_record(out, 7, factors, 8);
    put_record(out, 8, (uint32_t[]){COST, 0}, 2);
}

/* one chain through all places, each arc with its wait as dear as it may be; every second lane is measured, if one of that cost can be;
 * falling: the last arc stands first, and so does the last wait, and what a map has once stands before all of them */
static void make_chain(uint8_t *out, uint32_t wait, int falling)
{
    uint32_t allowance = 236 * PLACES, cost = COST - wait;
    int measured = cost == 4095 * 16;
    length = 0;
    put_record(out, 1, (uint32_t[]){PLACES, PLACES - 1}, 2);
    if (measured && falling)
        put_once(out);
    for (uint32_t i = 0; i < PLACES - 1; i++) {
        uint32_t v = falling ? PLACES - 2 - i : i;
        if (measured && v % 2 == 0)
            put_record(out, 5, (uint32_t[]){v, v + 1, 4095, 5}, 4);
        else
            put_record(out, 2, (uint32_t[]){v, v + 1, cost}, 3);
    }
    for (uint32_t i = 0; wait != 0 && i < PLACES; i++)
        put_record(out, 6, (uint32_t[]){falling ? PLACES - 1 - i : i, wait}, 2);
    if (measured && !falling)
        put_once(out);
    put_record(out, 4, (uint32_t[]){0, allowance & 0xffff, allowance >> 16, 1, PLACES - 1}, 5);
}

static void *route(void *p)
{
    struct Job *job = p;
    for (int i = 0; i < CALLS; i++) {
        uint32_t answer[7];
        uint32_t number = r3_route(input, length, job->work, sizeof job->work / 4, job->sheet, sizeof job->sheet, answer, 7);
        job->right &= number == 0 && answer[1] == (PLACES - 1) * (uint32_t)COST && answer[6] == R3_BYTES_OF(PLACES);
    }
    return NULL;
}

static void *read_sheet(void *p)
{
    struct Job *job = p;
    job->right &= r3_sheet(job->sheet, R3_BYTES, 0) == 0 && r3_sheet(job->sheet, R3_BYTES, 2) == PLACES;
    for (uint32_t i = 0; i < PLACES; i += 63)
        job->right &= r3_sheet(job->sheet, R3_BYTES, 3 + i) == i;
    return NULL;
}

static void *write_map(void *p)
{
    struct Job *job = p;
    for (int i = 0; i < CALLS; i++) {
        uint32_t answer[7];
        uint32_t number = r3_write_map(input, length, job->work, sizeof job->work / 4, job->output, INPUT, answer, 7);
        job->right &= number == 0 && answer[6] == length && memcmp(job->output, written, length) == 0;
    }
    return NULL;
}

/* the chain with its job twice; with waits it is too long for a day, so that it is left out there */
static void *report(void *p)
{
    struct Job *job = p;
    uint64_t figures[R3_FIGURES], cost = (PLACES - 1) * (uint64_t)COST;
    if (length + JOB > LONGEST_DAY)
        return NULL;
    memcpy(job->output, input, length);
    memcpy(job->output + length, input + length - JOB, JOB);
    for (int i = 0; i < CALLS; i++) {
        uint32_t ended = r3_report(job->output, length + JOB, job->work, sizeof job->work / 4, job->sheet, sizeof job->sheet, job->tally, R3_RECORDS,
                                   figures, R3_FIGURES);
        job->right &= ended == 0 && figures[0] == 2 * cost && figures[1] == cost && figures[3] == 2;
        job->right &= job->tally[PLACES - 1].routes == 2 && job->tally[PLACES - 1].cost == 2 * cost && job->tally[0].routes == 0;
    }
    return NULL;
}

/* runs a function on every job, each in a thread of its own; below its stack lies a page that cannot be touched */
static int run_all(void *(*function)(void *), struct Job *jobs, size_t stack)
{
    pthread_t thread[THREADS];
    size_t page = (size_t)sysconf(_SC_PAGESIZE);
    for (int i = 0; i < THREADS; i++) {
        uint8_t *low = page_end(stack + page) - stack;
        pthread_attr_t attr;
        if (mprotect(low - page, page, PROT_NONE) != 0 || pthread_attr_init(&attr) != 0 || pthread_attr_setstack(&attr, low, stack) != 0 ||
            pthread_create(&thread[i], &attr, function, &jobs[i]) != 0)
            return 0;
    }
    for (int i = 0; i < THREADS; i++)
        if (pthread_join(thread[i], NULL) != 0)
            return 0;
    return 1;
}

/* all calls on a chain with such a wait at each place: how many threads were right */
static int count_right(uint32_t wait)
{
    static struct Job jobs[THREADS];
    make_chain(written, wait, 0);
    make_chain(input, wait, 1);
    for (int i = 0; i < THREADS; i++) {
        memset(&jobs[i], 0xee, sizeof jobs[i]);
        jobs[i].right = 1;
    }
    int ran = run_all(route, jobs, ROUTE_STACK) && run_all(read_sheet, jobs, SHEET_STACK) && run_all(write_map, jobs, WRITE_STACK), right = 0;
    ran = ran && run_all(report, jobs, REPORT_STACK);
    for (int i = 0; i < THREADS; i++)
        right += jobs[i].right;
    return ran ? right : 0;
}

int main(void)
{
    int without = count_right(0), with = count_right(15);
    printf("threads: %d, right: %d without waits, %d with waits, factors and a default\n", THREADS, without, with);
    return without != THREADS || with != THREADS;
}
