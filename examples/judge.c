/*
 * Judges the trace in a file: prints a line and exits with 0 robust, 1 broken, 2 refused; 3 if it cannot be read. If a
 * flush is missing, more lines say where it may go. The load at which a trace is broken may be a close, as of which the
 * loads that its thread held count. An empty file, as that of a recorder that never started, is a trace with no events,
 * which is robust.
 *
 *     (cd crates/cabi && rt lib) && mkdir -p target
 *     cc -Iinclude examples/judge.c crates/cabi/out/libcabi.a -o target/judge
 *     target/judge examples/flush.trace
 */
#include <stdio.h>

#include "gorbuzte.h"

#define LONGEST 65536

static uint8_t trace[LONGEST];
static uint16_t work[GORBUZTE_WORK];
static uint16_t cut[GORBUZTE_CUT];

static const char *const kinds[] = {
    [GORBUZTE_CONTRADICTION] = "contradiction",
    [GORBUZTE_FLUSH] = "flush",
    [GORBUZTE_IMPOSSIBLE] = "impossible",
};

/* Reads the file. Returns its length, at most LONGEST and 0 if it is empty, or -1. */
static long read_file(const char *path)
{
    FILE *file = fopen(path, "rb");
    if (file == NULL)
        return -1;
    size_t size = fread(trace, 1, LONGEST, file);
    int failed = ferror(file);
    fclose(file);
    return failed ? -1 : (long)size;
}

/* Prints the primary thread, and for each thread with a window the events in front of which it may flush. */
static void print_windows(const uint16_t *answer)
{
    printf("primary thread %d\n", answer[GORBUZTE_PRIMARY] - 1);
    for (int thread = 0; thread < 8; thread++) {
        const uint16_t *window = answer + GORBUZTE_WINDOWS + 2 * thread;
        if (window[0] != 0)
            printf("thread %d may flush in front of events %d to %d\n", thread, window[0], window[1]);
    }
}

int main(int argc, char **argv)
{
    uint16_t answer[GORBUZTE_ANSWER_SIZE];
    long size = argc == 2 ? read_file(argv[1]) : -1;
    if (size < 0) {
        fprintf(stderr, "usage: judge FILE\n");
        return 3;
    }
    gorbuzte_judge(trace, (size_t)size, work, GORBUZTE_WORK, cut, GORBUZTE_CUT, answer);
    switch (answer[GORBUZTE_VERDICT]) {
    case GORBUZTE_ROBUST:
        printf("robust: %d events, share %d\n", answer[GORBUZTE_EVENTS], answer[GORBUZTE_SHARE]);
        return 0;
    case GORBUZTE_BROKEN:
        printf("broken at load %d: store %d is missing, store %d was observed (%s)\n", answer[GORBUZTE_LOAD],
               answer[GORBUZTE_MISSING], answer[GORBUZTE_OBSERVED], kinds[answer[GORBUZTE_KIND]]);
        if (answer[GORBUZTE_KIND] == GORBUZTE_FLUSH)
            print_windows(answer);
        return 1;
    default:
        printf("refused %d at event %d\n", answer[GORBUZTE_REFUSAL], answer[GORBUZTE_EVENT]);
        return 2;
    }
}
