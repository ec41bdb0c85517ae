/*
 * The calls of the static library on no bytes, document 02, job 6: "For judging, empty bytes mean a trace with no
 * events: robust, all-zero cut, share 100, `events 0`. Other calls still turn it away." And those on opens and closes,
 * job 7: "Version 2 of the begin record admits kind 15 (open: thread, length 4) and kind 16 (close: thread, outcome,
 * length 6)." Prints a line for each test, 'passed: NAME' or 'failed: NAME'; exits with 0 behind the last.
 *
 * No bytes are lent as a pointer to a record, with length 0: a call that looks behind its length meets that record.
 */
#include <stdio.h>

#include "gorbuzte.h"

#define MORE 3  /* numbers behind those that a call may change */
#define LENT 7  /* what buffers and answers hold before a call */
#define ORDER 3 /* numbers of an answer to gorbuzte_order */

static const uint8_t begin[] = {8, 0, 1, 0, 1, 0, 1, 0, 2, 0};
static const uint8_t crash[] = {2, 0, 9, 0};
static const uint8_t open7[] = {4, 0, 15, 0, 7, 0};
static const uint8_t close8[] = {6, 0, 16, 0, 8, 0, 9, 0};

/* B2.1.2 I0.0 C0 X O0 L0.0<1 L0.0<0 K0.1: as of the close, 7, load 5 observes store 1 and load 6 forbids it */
static const uint8_t held[] = {8, 0, 1, 0, 2, 0, 1, 0, 2, 0, 6, 0, 2, 0, 0, 0, 0, 0, 4, 0, 3, 0, 0, 0,
                               2, 0, 9, 0, 4, 0, 15, 0, 0, 0, 8, 0, 4, 0, 0, 0, 0, 0, 1, 0, 8, 0, 4, 0,
                               0, 0, 0, 0, 0, 0, 6, 0, 16, 0, 0, 0, 1, 0};

#define VERSION 4                      /* where the version of a trace stands */
#define OUTCOME (sizeof held - 2)      /* where the outcome of the close stands */
#define BEFORE_CLOSE (sizeof held - 8) /* bytes in front of the close */

static uint16_t work[GORBUZTE_WORK + MORE];
static uint16_t cut[2 * GORBUZTE_CUT];
static uint16_t answer[GORBUZTE_ANSWER_SIZE + MORE];

static void test(const char *name, int passed)
{
    printf("%s: %s\n", passed ? "passed" : "failed", name);
}

static void fill(uint16_t *numbers, size_t count)
{
    for (size_t i = 0; i < count; i++)
        numbers[i] = LENT;
}

/* Whether the numbers from a place up to another are all the one given. */
static int all(const uint16_t *numbers, size_t from, size_t to, uint16_t number)
{
    for (size_t i = from; i < to; i++)
        if (numbers[i] != number)
            return 0;
    return 1;
}

static void fill_all(void)
{
    fill(work, GORBUZTE_WORK + MORE);
    fill(cut, 2 * GORBUZTE_CUT);
    fill(answer, GORBUZTE_ANSWER_SIZE + MORE);
}

/* Whether the first 32,768 numbers of the work area are 0 and the others as lent. */
static int work_cleared(void)
{
    return all(work, 0, GORBUZTE_WORK, 0) && all(work, GORBUZTE_WORK, GORBUZTE_WORK + MORE, LENT);
}

static int work_untouched(void)
{
    return all(work, 0, GORBUZTE_WORK + MORE, LENT);
}

static int cut_untouched(void)
{
    return all(cut, 0, 2 * GORBUZTE_CUT, LENT);
}

/* Whether an answer to gorbuzte_judge has these numbers, 0 at every other place, and ends there. */
static int answered(uint16_t refusal, uint16_t verdict, uint16_t share)
{
    for (size_t i = 0; i < GORBUZTE_ANSWER_SIZE; i++) {
        uint16_t expected = 0;
        if (i == GORBUZTE_REFUSAL)
            expected = refusal;
        else if (i == GORBUZTE_VERDICT)
            expected = verdict;
        else if (i == GORBUZTE_SHARE)
            expected = share;
        if (answer[i] != expected)
            return 0;
    }
    return all(answer, GORBUZTE_ANSWER_SIZE, GORBUZTE_ANSWER_SIZE + MORE, LENT);
}

/* Whether an answer to gorbuzte_judge starts with these numbers, has 0 at every other place, and ends there. */
static int answered_with(const uint16_t *numbers, size_t count)
{
    for (size_t i = 0; i < count; i++)
        if (answer[i] != numbers[i])
            return 0;
    return all(answer, count, GORBUZTE_ANSWER_SIZE, 0) &&
           all(answer, GORBUZTE_ANSWER_SIZE, GORBUZTE_ANSWER_SIZE + MORE, LENT);
}

/* Judges with buffers of these sizes. */
static void judge(const uint8_t *trace, size_t size, size_t work_len, size_t cut_len)
{
    fill_all();
    gorbuzte_judge(trace, size, work, work_len, cut, cut_len, answer);
}

/* No bytes are robust: the 56 numbers of the cut buffer are 0, and the first 32,768 of the work area. */
static void judged(const char *name, const uint8_t *trace, size_t work_len)
{
    judge(trace, 0, work_len, GORBUZTE_CUT);
    test(name, answered(0, GORBUZTE_ROBUST, 100) && work_cleared() && all(cut, 0, GORBUZTE_CUT, 0) &&
                   all(cut, GORBUZTE_CUT, 2 * GORBUZTE_CUT, LENT));
}

/* On no bytes too, refusals 14 and 15 come first, carry event 0 and touch nothing. */
static void judge_refused(const char *name, size_t work_len, size_t cut_len, uint16_t refusal)
{
    judge(begin, 0, work_len, cut_len);
    test(name, answered(refusal, GORBUZTE_REFUSED, 0) && work_untouched() && cut_untouched());
}

/* A refusal over the first record carries event 0, leaves the cut buffer and clears the work area. */
static void record_refused(const char *name, const uint8_t *trace, size_t size, uint16_t refusal)
{
    judge(trace, size, GORBUZTE_WORK + MORE, GORBUZTE_CUT);
    test(name, answered(refusal, GORBUZTE_REFUSED, 0) && work_cleared() && cut_untouched());
}

/* The order query is refused at event 0, and has no standing. */
static void order_refused(const char *name, size_t size, size_t work_len, uint16_t first, uint16_t second,
                          uint16_t refusal)
{
    fill_all();
    gorbuzte_order(begin, size, work, work_len, first, second, answer);
    test(name, answer[0] == refusal && answer[1] == 0 && answer[2] == 0 &&
                   all(answer, ORDER, GORBUZTE_ANSWER_SIZE + MORE, LENT) &&
                   (work_len < GORBUZTE_WORK ? work_untouched() : work_cleared()));
}

/* Reading no bytes is refused with 1, at every position; there is no kind and no field. */
static void read_refused(const char *name, const uint8_t *trace, size_t at)
{
    fill_all();
    size_t next = gorbuzte_read(trace, 0, at, answer);
    test(name, next == 0 && answer[GORBUZTE_RECORD_REFUSAL] == 1 &&
                   all(answer, GORBUZTE_RECORD_KIND, GORBUZTE_RECORD_SIZE, 0) &&
                   all(answer, GORBUZTE_RECORD_SIZE, GORBUZTE_ANSWER_SIZE + MORE, LENT));
}

/* Framing gives an empty part of no bytes, at their start, whatever the number. */
static void frame_empty(const char *name, const uint8_t *trace, size_t e)
{
    size_t place[2] = {LENT, LENT};
    gorbuzte_frame(trace, 0, e, place);
    test(name, place[0] == 0 && place[1] == 0);
}

/* Judges the first bytes of `held` with another version and outcome; the answer has these numbers, up to the kind. */
static void held_judged(const char *name, size_t size, uint8_t version, uint8_t outcome, const uint16_t *numbers)
{
    uint8_t trace[sizeof held];
    for (size_t i = 0; i < sizeof held; i++)
        trace[i] = held[i];
    trace[VERSION] = version;
    trace[OUTCOME] = outcome;
    judge(trace, size, GORBUZTE_WORK + MORE, GORBUZTE_CUT);
    int cut_is = numbers[GORBUZTE_VERDICT] == GORBUZTE_ROBUST ? all(cut, 0, GORBUZTE_CUT, 0) : cut_untouched();
    test(name, answered_with(numbers, GORBUZTE_KIND + 1) && work_cleared() && cut_is);
}

/* A record is read to these numbers, and these numbers are written to it again; one byte less is refused with 17. */
static void round_trip(const char *name, const uint8_t *bytes, size_t size, const uint16_t *numbers)
{
    uint8_t output[sizeof close8] = {0};
    fill_all();
    int same = gorbuzte_read(bytes, size, 0, answer) == size;
    for (size_t i = 0; i < GORBUZTE_RECORD_SIZE; i++)
        same = same && answer[i] == numbers[i];
    same = same && all(answer, GORBUZTE_RECORD_SIZE, GORBUZTE_ANSWER_SIZE + MORE, LENT);
    same = same && gorbuzte_write(answer, output, size - 1) == 0 && answer[GORBUZTE_RECORD_REFUSAL] == 17;
    same = same && gorbuzte_write(answer, output, size) == size && answer[GORBUZTE_RECORD_REFUSAL] == 0;
    for (size_t i = 0; i < size; i++)
        same = same && output[i] == bytes[i];
    test(name, same);
}

/* Opens and closes, document 02, job 7. */
static void checksums(void)
{
    static const uint16_t open_numbers[] = {0, 15, 0, 0, 0, 7, 0, 0, 0};
    static const uint16_t close_numbers[] = {0, 16, 0, 0, 0, 8, 0, 0, 9};
    static const uint16_t at_close[] = {0, 0, GORBUZTE_BROKEN, 7, 0, 7, 1, 1, GORBUZTE_CONTRADICTION};
    static const uint16_t dropped[] = {0, 0, GORBUZTE_ROBUST, 7, 0, 0, 0, 0, 0};
    static const uint16_t not_closed[] = {0, 0, GORBUZTE_ROBUST, 6, 0, 0, 0, 0, 0};
    static const uint16_t outcome_2[] = {19, 7, 0, 0, 0, 0, 0, 0, 0};
    static const uint16_t unknown[] = {3, 4, 0, 0, 0, 0, 0, 0, 0};
    static const uint16_t version_3[] = {6, 0, 0, 0, 0, 0, 0, 0, 0};
    round_trip("read and write, an open", open7, sizeof open7, open_numbers);
    round_trip("read and write, a close", close8, sizeof close8, close_numbers);
    held_judged("judge, broken at a close", sizeof held, 2, 1, at_close);
    held_judged("judge, a close that drops its loads", sizeof held, 2, 0, dropped);
    held_judged("judge, loads that the trace's end drops", BEFORE_CLOSE, 2, 1, not_closed);
    held_judged("judge, 19: outcome 2", sizeof held, 2, 2, outcome_2);
    held_judged("judge, 3: an open in version 1", sizeof held, 1, 1, unknown);
    held_judged("judge, 6: version 3", sizeof held, 3, 1, version_3);
    record_refused("judge, 1: an open first", open7, sizeof open7, 1);
}

int main(void)
{
    judged("judge, no bytes in front of a begin", begin, GORBUZTE_WORK + MORE);
    judged("judge, no bytes in front of a crash", crash, GORBUZTE_WORK + MORE);
    judged("judge, no bytes behind a record", begin + sizeof begin, GORBUZTE_WORK + MORE);
    judged("judge, no bytes, the smallest work area", begin, GORBUZTE_WORK);

    judge_refused("judge, 14: 32,767 numbers", GORBUZTE_WORK - 1, GORBUZTE_CUT, 14);
    judge_refused("judge, 14: a work area of no numbers", 0, GORBUZTE_CUT, 14);
    judge_refused("judge, 14 before 15", GORBUZTE_WORK - 1, GORBUZTE_CUT - 1, 14);
    judge_refused("judge, 15: 55 numbers", GORBUZTE_WORK, GORBUZTE_CUT - 1, 15);
    judge_refused("judge, 15: 57 numbers", GORBUZTE_WORK, GORBUZTE_CUT + 1, 15);
    judge_refused("judge, 15: a cut buffer of no numbers", GORBUZTE_WORK, 0, 15);

    record_refused("judge, 1: a crash first", crash, sizeof crash, 1);
    record_refused("judge, 2: one byte", begin, 1, 2);

    order_refused("order, no bytes, 1: 0 and 0", 0, GORBUZTE_WORK + MORE, 0, 0, 1);
    order_refused("order, no bytes, 1: 1 and 2", 0, GORBUZTE_WORK + MORE, 1, 2, 1);
    order_refused("order, no bytes, 1: 65,535 and 65,535", 0, GORBUZTE_WORK + MORE, UINT16_MAX, UINT16_MAX, 1);
    order_refused("order, no bytes, 1: the smallest work area", 0, GORBUZTE_WORK, 0, 0, 1);
    order_refused("order, no bytes, 14 before 1", 0, GORBUZTE_WORK - 1, 0, 0, 14);
    order_refused("order, a begin alone, 16", sizeof begin, GORBUZTE_WORK + MORE, 0, 0, 16);

    read_refused("read, no bytes in front of a begin", begin, 0);
    read_refused("read, no bytes in front of a crash", crash, 0);
    read_refused("read, no bytes, past their end", begin, 1);
    read_refused("read, no bytes, at the last position of all", begin, SIZE_MAX);

    frame_empty("frame, no bytes in front of a begin", begin, 0);
    frame_empty("frame, no bytes in front of a crash", crash, 0);
    frame_empty("frame, no bytes, record 1", begin, 1);
    frame_empty("frame, no bytes, the last number of all", begin, SIZE_MAX);

    checksums();
    return 0;
}
