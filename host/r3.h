/* The functions that the R3 router's archives export for a host in C or C++.
 *
 * A call keeps nothing: it has no state, no heap and no files, and holds no pointer after it returns. So calls may run in several threads
 * at once, each with areas of its own; what is only read may be shared.
 *
 * A slice is passed as a pointer and a length, counted in elements. What is promised rests on four things that nobody checks:
 * no pointer is null, also where the length is 0; words, records and figures are aligned as their types are; the areas that a call may
 * write overlap neither each other nor what it reads; and there is stack enough: 64 KiB for r3_sheet and r3_write_map, of which judging a map
 * takes 20 for notes of its estimates and waits; for r3_route, which besides puts a route down by a recursion with one call for each of its
 * places, 320 KiB; and for r3_report, which routes and has 112 KiB of its own for a map with one job and for the sums by goal, 448 KiB. */
#ifndef R3_H
#define R3_H

#include <stddef.h>
#include <stdint.h>

#ifdef __cplusplus
extern "C" {
#endif

/* libsheet_reader.a: asks one question of a sheet.
 * 0: the number of the read (0 a route, 17 no route, 18 and 19 refused)
 * 1: the cost      2: the count of places      3 + i: place i
 * No route: cost 0, count 1, and place 0 is the start. A place beyond the last is 0. A refused sheet gives 0 to all but question 0. */
uint32_t r3_sheet(const uint8_t *sheet, size_t length, uint32_t question);

/* librouter.a: routes a job. The input is read; work and sheet are lent to the call; as many of the answer's seven numbers as
 * there is room for are stored in answer: number, cost, limit, floor, expansions, queries, sheet bytes. The number comes back.
 * 0: the route sheet is at the front of the sheet area
 * 1 to 15 and 20 to 22: refused, and neither area has changed
 * 16: the allowance is spent, and no route costs less than floor where no estimate overstates; the sheet area has not changed. The same
 *     input with a larger allowance gives the answer, the same for all that are enough, or 16 again with a floor no lower
 * 17: no goal can be reached; the no-route sheet is at the front of the sheet area
 * After 0, 16 and 17 the first 16 * N + 2 * M words of work are 0. No other word or byte changes.
 * A map of N places and M arcs asks for the words and bytes below, or gets 14 or 15. R3_WORDS and R3_BYTES are enough for all. */
#define R3_WORDS_OF(places, arcs) (16 * (size_t)(places) + 2 * (size_t)(arcs))
#define R3_BYTES_OF(places) (10 + 2 * (size_t)(places))
#define R3_WORDS R3_WORDS_OF(4096, 16384)
#define R3_BYTES R3_BYTES_OF(4096)
uint32_t r3_route(const uint8_t *input, size_t length, uint32_t *work, size_t words, uint8_t *sheet, size_t bytes,
                  uint32_t *answer, size_t room);

/* libmap_writer.a: writes the map and the job of an input anew: the head, the arcs by from, to, cost, kind and what else they say,
 * the estimates other than the default by place and none for goals, the waits other than 0 by place, the factors where they are not the
 * fixed ones, the default where it is not 0, then the job.
 * Inputs that say the same are written alike. The input is read; work and output are lent to the call; the answer's seven numbers are:
 * number, five zeros, bytes written. The number comes back.
 * 0: the map is at the front of the output area
 * 1 to 15 and 20 to 22: refused as by r3_route, and neither area has changed; but 15 is for an output area shorter than the input
 * After 0 the first R3_WORDS_OF(N, M) words of work are 0. No other word or byte changes. */
uint32_t r3_write_map(const uint8_t *input, size_t length, uint32_t *work, size_t words, uint8_t *output, size_t bytes,
                      uint32_t *answer, size_t room);

/* libday.a: the report of a day. The input is a map, that is all records before the first job, and then up to 1,000 records, each of
 * which counts as one job: a job is routed as if it were alone with the map, as by r3_route with the work and sheet areas that are lent;
 * any other record is refused with 10, and a broken tail with 1. The input is read; work, sheet, tally and figures are lent to the call.
 * How the report ended comes back.
 * 0: record g of the tally, for g from 0 to 4,095, holds g, how many routes end there, and what they cost, whatever it held before; later
 *    records have not changed. Work and sheet areas are as the last job left them
 * 15: the tally has fewer than 4,096 records. It has not changed, nor has the work area or the sheet area
 * R3_TOO_LONG: the input has more than 65,536 bytes, or more than 1,000 records after the map, a broken tail being one. Neither area and
 *    no record has changed
 * As many figures as there is room for are stored: the total cost of all routes, the largest, the total of the expansions of jobs with a
 * route and with no route, and then how many jobs came to number 0, 1 and so on up to 22. All are 0 where no report was made. */
#define R3_TOO_LONG 255
#define R3_RECORDS 4096
#define R3_FIGURES 26
struct r3_tally {
    uint32_t goal, routes;
    uint64_t cost;
};
uint32_t r3_report(const uint8_t *input, size_t length, uint32_t *work, size_t words, uint8_t *sheet, size_t bytes,
                   struct r3_tally *tally, size_t records, uint64_t *figures, size_t room);

#ifdef __cplusplus
}
#endif

#endif
