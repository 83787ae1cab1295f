/* Times plan_sheet on the job in a file: usage bench JOB RUNS. Prints the microseconds of each call, one to a line. */
#define _POSIX_C_SOURCE 200809L
#include "dizhondu.h"

#include <stdio.h>
#include <stdlib.h>
#include <time.h>

static double now(void) {
    struct timespec t;
    clock_gettime(CLOCK_MONOTONIC, &t);
    return t.tv_sec * 1e6 + t.tv_nsec / 1e3;
}

int main(int count, char **words) {
    static uint8_t job[DIZHONDU_JOB_LIMIT + 1], sheet[DIZHONDU_SHEET_SPACE];
    FILE *file = count == 3 ? fopen(words[1], "rb") : NULL;
    if (file == NULL) {
        fprintf(stderr, "usage: bench JOB RUNS\n");
        return 2;
    }
    size_t length = fread(job, 1, sizeof job, file);
    for (int runs = atoi(words[2]); runs > 0; runs--) {
        double start = now();
        uint32_t number = plan_sheet(job, length, sheet, sizeof sheet);
        double end = now();
        if (number >= DIZHONDU_REFUSED) {
            fprintf(stderr, "bench: %s is refused with %u\n", words[1], (unsigned)(number - DIZHONDU_REFUSED));
            return 1;
        }
        printf("%.1f\n", end - start);
    }
    return 0;
}
