/* Calls plan_sheet and plan_page on each job of standard input and prints what they give.
   Input: for each job its byte count, a line feed and its bytes.
   Output: for each job the number that plan_sheet returns, a line feed and, if it is served, the sheet; then the page's byte count,
   a line feed and the page.
   In each call the job can only be read and ends where no memory follows; the lent sheet and the lent page end there too, and the
   bytes in front of them are guard bytes. The first time that a byte beside the sheet or the page, or one lent to a refused job, is
   changed is said on standard error, and the exit status is then 1. Each call has a thread with DIZHONDU_STACK bytes of stack. */
#define _DEFAULT_SOURCE
#include "dizhondu.h"

#include <pthread.h>
#include <stdio.h>
#include <stdlib.h>
#include <string.h>
#include <sys/mman.h>

enum { AREA = 1 << 16, PAGE = 1 << 12, SHORT_OF_SPACE = DIZHONDU_REFUSED + 9, SHORT_OF_PAGE = DIZHONDU_REFUSED + 11 };

static uint8_t *jobs, *sheets, *pages; /* areas of AREA bytes, each followed by a page that must not be touched */
static size_t job_length;
static int job_count, failed;
static pthread_attr_t with_stack;

static uint8_t *area(void) {
    uint8_t *start = mmap(NULL, AREA + PAGE, PROT_READ | PROT_WRITE, MAP_PRIVATE | MAP_ANONYMOUS, -1, 0);
    if (start == MAP_FAILED || mprotect(start + AREA, PAGE, PROT_NONE) != 0) {
        perror("area");
        exit(2);
    }
    return start;
}

static void expect(int holds, const char *what) {
    if (holds) return;
    if (!failed) fprintf(stderr, "job %d: %s\n", job_count, what);
    failed = 1;
}

/* What a call is given, and what it returns; a call without a page calls plan_sheet. */
struct call {
    size_t space, page_space;
    int with_page;
    uint64_t answer;
};

static void *plan(void *argument) {
    struct call *c = argument;
    const uint8_t *job = jobs + AREA - job_length;
    uint8_t *sheet = sheets + AREA - c->space;
    if (c->with_page)
        c->answer = plan_page(job, job_length, sheet, c->space, pages + AREA - c->page_space, c->page_space);
    else
        c->answer = plan_sheet(job, job_length, sheet, c->space);
    return NULL;
}

/* Whether all bytes of an area are filled but for those of a text at the front of its lent part. */
static int filled(const uint8_t *start, size_t space, size_t written, uint8_t fill) {
    const uint8_t *lent = start + AREA - space;
    for (const uint8_t *x = start; x < start + AREA; x++)
        if ((x < lent || x >= lent + written) && *x != fill) return 0;
    return 1;
}

/* What a call returns for the job with so much space; all that is not the sheet or the page must stay filled. */
static uint64_t answer(struct call c, uint8_t fill) {
    memset(sheets, fill, AREA);
    memset(pages, fill, AREA);
    pthread_t thread;
    if (pthread_create(&thread, &with_stack, plan, &c) != 0 || pthread_join(thread, NULL) != 0) {
        fprintf(stderr, "no thread\n");
        exit(2);
    }
    uint32_t number = DIZHONDU_SHEET_NUMBER(c.answer), count = DIZHONDU_PAGE_COUNT(c.answer);
    expect(number <= c.space || number > DIZHONDU_REFUSED, "the number is neither a byte count nor a refusal");
    expect(count <= c.page_space && (count == 0 || number <= c.space), "the page's count is more than its space, or not 0 for a refused job");
    expect(filled(sheets, c.space, number <= c.space ? number : 0, fill), "a byte beside the sheet was changed");
    expect(filled(pages, c.page_space, count, fill), "a byte beside the page was changed");
    return c.answer;
}

static uint32_t call(size_t space, uint8_t fill) {
    return answer((struct call){space, 0, 0, 0}, fill);
}

static uint64_t page_call(size_t space, size_t page_space, uint8_t fill) {
    return answer((struct call){space, page_space, 1, 0}, fill);
}

/* The page call: the sheet and the number of plan_sheet, in ample and in just enough space; the page is printed. */
static void try_page(uint32_t number, const uint8_t *sheet) {
    static uint8_t text[DIZHONDU_PAGE_SPACE];
    uint64_t whole = page_call(DIZHONDU_SHEET_SPACE, sizeof text, 0xA5);
    uint32_t count = DIZHONDU_PAGE_COUNT(whole);
    memcpy(text, pages + AREA - sizeof text, count);
    printf("%u\n", (unsigned)count);
    fwrite(text, 1, count, stdout);
    expect(DIZHONDU_SHEET_NUMBER(whole) == number, "another number with a page");
    if (number > DIZHONDU_SHEET_SPACE) {
        expect(page_call(0, 0, 0x5A) == number, "another refusal with no space for the sheet and the page");
        return;
    }
    expect(memcmp(sheet, sheets + AREA - DIZHONDU_SHEET_SPACE, number) == 0, "another sheet with a page");
    expect(page_call(number, count, 0x5A) == whole, "sheet and page do not fit their own sizes");
    expect(memcmp(sheet, sheets + AREA - number, number) == 0, "another sheet in smaller space with a page");
    expect(memcmp(text, pages + AREA - count, count) == 0, "another page in smaller space");
    expect(page_call(number - 1, count, 0x5A) == SHORT_OF_SPACE, "no refusal 9 with a byte too little for the sheet");
    if (count == 0) return;
    expect(page_call(number, count - 1, 0x5A) == SHORT_OF_PAGE, "no refusal 11 with a byte too little for the page");
    expect(page_call(number, 0, 0x5A) == SHORT_OF_PAGE, "no refusal 11 with no space for the page");
    expect(page_call(number - 1, count - 1, 0x5A) == SHORT_OF_SPACE, "no refusal 9 with a byte too little for both");
}

int main(void) {
    static uint8_t text[DIZHONDU_SHEET_SPACE];
    jobs = area();
    sheets = area();
    pages = area();
    pthread_attr_init(&with_stack);
    pthread_attr_setstacksize(&with_stack, DIZHONDU_STACK);
    while (scanf("%zu", &job_length) == 1) {
        job_count++;
        mprotect(jobs, AREA, PROT_READ | PROT_WRITE);
        if (getchar() != '\n' || job_length > AREA
            || fread(jobs + AREA - job_length, 1, job_length, stdin) != job_length) {
            fprintf(stderr, "job %d cannot be read\n", job_count);
            return 2;
        }
        mprotect(jobs, AREA, PROT_READ);
        uint32_t number = call(sizeof text, 0xA5);
        printf("%u\n", (unsigned)number);
        if (number <= sizeof text) {
            memcpy(text, sheets + AREA - sizeof text, number);
            fwrite(text, 1, number, stdout);
            expect(call(number, 0x5A) == number, "the sheet does not fit its own size");
            expect(memcmp(text, sheets + AREA - number, number) == 0, "another sheet in smaller space");
            expect(call(number - 1, 0x5A) == SHORT_OF_SPACE, "no refusal 9 with a byte too little");
            expect(call(0, 0x5A) == SHORT_OF_SPACE, "no refusal 9 with no space");
        } else {
            expect(call(0, 0x5A) == number, "another refusal with no space");
        }
        try_page(number, text);
        fflush(stdout);
    }
    return failed;
}
