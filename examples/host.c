/* Reads a job from the file named on the command line, or from standard input, and prints its sheet, or with --page its clipboard
   page. Of a refused job it says why on standard error, and exits with the refusal's number. */
#include "dizhondu.h"

#include <stdio.h>
#include <string.h>

static const char *const causes[] = {
    "no cause",
    "this is not a job file",
    "a number of the layout is out of bounds",
    "the count of stock records, or a field of one, is out of bounds",
    "two stock records name the same cell",
    "the count of list lines, or a field of one, is out of bounds",
    "two lines of the list name the same article",
    "the list is too heavy: the product of (quantity + 1) over its lines is above 256",
    "a line asks for more than all the stock of its article",
    "the sheet is longer than the space for it",
    "the work area is too small",
    "the page is longer than the space for it",
};

int main(int argc, char **argv) {
    static uint8_t job[DIZHONDU_JOB_LIMIT + 1]; /* one byte more, so that a longer job is seen to be too long */
    static uint8_t sheet[DIZHONDU_SHEET_SPACE];
    static uint8_t page[DIZHONDU_PAGE_SPACE];
    int with_page = argc > 1 && strcmp(argv[1], "--page") == 0;
    const char *name = argc > 1 + with_page ? argv[1 + with_page] : NULL;
    FILE *file = name != NULL ? fopen(name, "rb") : stdin;
    if (file == NULL) {
        perror(name);
        return 64;
    }
    size_t length = fread(job, 1, sizeof job, file);
    if (ferror(file)) {
        perror("reading the job");
        return 64;
    }
    uint64_t answer = with_page ? plan_page(job, length, sheet, sizeof sheet, page, sizeof page) : plan_sheet(job, length, sheet, sizeof sheet);
    uint32_t number = DIZHONDU_SHEET_NUMBER(answer);
    if (number > DIZHONDU_REFUSED) {
        number -= DIZHONDU_REFUSED;
        fprintf(stderr, "refused (%u): %s\n", (unsigned)number, number < 12 ? causes[number] : "unknown cause");
        return (int)number;
    }
    if (with_page)
        fwrite(page, 1, DIZHONDU_PAGE_COUNT(answer), stdout);
    else
        fwrite(sheet, 1, number, stdout);
    return 0;
}
