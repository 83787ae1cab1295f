/* The planning host's entries to the router. Link with libhost.a, which `tools/build` writes. */
#ifndef DIZHONDU_H
#define DIZHONDU_H

#include <stddef.h>
#include <stdint.h>

#ifdef __cplusplus
extern "C" {
#endif

/* This much sheet space suffices for every job. */
#define DIZHONDU_SHEET_SPACE 16384

/* This much page space suffices for every job: 255 lines of 25 bytes. */
#define DIZHONDU_PAGE_SPACE 6375

/* A longer job is refused with 1. */
#define DIZHONDU_JOB_LIMIT 16384

/* What is added to a refusal's number. */
#define DIZHONDU_REFUSED 65536

/* A call fits a thread with this much stack. Measured on x86-64, as the older kit built it, over all jobs of tests/vectors and
   tests/cases, by what a call changed of a filled stack below its caller's frame: 335,487 bytes by plan_sheet and 372,015 by
   plan_page at most. The tests make each of their calls in a thread with just this much. */
#define DIZHONDU_STACK 393216

/* Plans the tour of the job in job[0 .. job_length) and writes its sheet to the front of sheet[0 .. sheet_space).

   Returns the sheet's byte count, at most sheet_space; the bytes behind it are left as they were. A job with an empty list
   (`D 0`) is served too: a tour of length 0, which treads nothing. A job may have posts between the cells: `L 2`, and after the
   layout line the line `k u`, a post after every k cells (1 to 24), each u wide (0 to 10). Its depot may be at the back: `L 3`, and
   after the line `k u` (u 0 where there are no posts) a line FRONT or BACK; with BACK the depot is the back crossing of aisle d, and
   the policies read TOP for BOTTOM and 20 for 02 where they name only those. It may have opening hours: between the sections S and D
   `M 1` with the minute of the day (0 to 1439), then `H n` (0 to 64) with lines aisle, from, to (from below to, to at most 1440). An
   aisle with lines is open when from <= minute < to for one of them; a shut aisle is not entered, and its stock counts for nothing.
   The policy word is EXACT, RETURN, TRAVERSAL, MIDPOINT, COMPOSITE or LARGEST. Of an odd number of entered aisles
   TRAVERSAL walks one back: the leftmost where the depot lies right of the middle (2 * d > m + 1), otherwise the rightmost. Where
   several tours are the shortest, one that enters the fewest aisles is taken, and of these the first in the published order of plans. No
   tour is longer than 57,280.
   For a refused job it returns DIZHONDU_REFUSED plus the refusal's number, and every byte of the sheet is left as
   it was. The first cause of this list that applies gives the number:

     1  not a job file                          5  list count (above 8) or field out of bounds
     2  layout number (k, u too) out of bounds  6  an article on two lines
     3  stock count or field out of bounds      7  weight of the list above 256
     4  a cell in two stock records             8  a line exceeds all stock of its article in open aisles
    12  minute, H count or field out of bounds  9  sheet longer than its space

   Both pointers must be valid and must not overlap, also where a length is 0. Nothing is kept between calls. The work area
   is on the stack: DIZHONDU_STACK bytes suffice. */
uint32_t plan_sheet(const uint8_t *job, size_t job_length, uint8_t *sheet, size_t sheet_space);

/* What plan_page returns: the page's byte count, and the number of plan_sheet. */
#define DIZHONDU_PAGE_COUNT(answer) ((uint32_t)((answer) >> 32))
#define DIZHONDU_SHEET_NUMBER(answer) ((uint32_t)(answer))

/* Plans a job as plan_sheet does, and writes its clipboard page to the front of page[0 .. page_space): for each pick a line of 24
   bytes and a line feed, in the order in which the walk first reaches the cells. Bytes 1-2 are the aisle, byte 3 a hyphen, 4-5 the
   cell, 6 a space, 7-9 the quantity, 10-19 full stops, 20-24 the article; numbers are right-aligned, with spaces in front.

   Returns the page's byte count times 2^32, plus the number of plan_sheet; the bytes behind the sheet and behind the page are left
   as they were. For a refused job the page's byte count is 0, and every byte of the sheet and of the page is left as it was. One
   cause more is tried after those above:

    11  page longer than its space

   The three pointers must be valid and must not overlap, also where a length is 0. DIZHONDU_STACK bytes of stack suffice. */
uint64_t plan_page(const uint8_t *job, size_t job_length, uint8_t *sheet, size_t sheet_space, uint8_t *page, size_t page_space);

#ifdef __cplusplus
}
#endif

#endif
