/*
 * Gorbuzte: a judge of store order across crashes, for C.
 *
 * Link crates/cabi/out/libcabi.a, which `rt lib` in crates/cabi proves and builds (x86-64 Linux). Every call takes any
 * input, always returns, keeps nothing and calls nothing outside the library. A trace is a pointer and a length in
 * bytes, a work area or a cut buffer a pointer and a length in two-byte numbers; no two of them may overlap. A pointer
 * must not be NULL, even where its length is 0. Answers are two-byte numbers in lent arrays of fixed size.
 */
#ifndef GORBUZTE_H
#define GORBUZTE_H

#include <stddef.h>
#include <stdint.h>

#ifdef __cplusplus
extern "C" {
#endif

#define GORBUZTE_WORK 32768 /* numbers of a work area, at least */
#define GORBUZTE_CUT 56     /* numbers of a cut buffer, exactly */

/* The numbers of an answer to gorbuzte_judge. What a verdict does not have is 0. */
enum gorbuzte_answer {
    GORBUZTE_REFUSAL,  /* the refusal's number, 1 to 15, 18 or 19, or 0 */
    GORBUZTE_EVENT,    /* the refusal's event number */
    GORBUZTE_VERDICT,  /* one of gorbuzte_verdict */
    GORBUZTE_EVENTS,   /* events after the begin */
    GORBUZTE_SHARE,    /* robust: the share, in percent */
    GORBUZTE_LOAD,     /* broken: the first event, of kind 4, 12 or 16, with which no choice explains the loads */
    GORBUZTE_MISSING,  /* broken: the store that a load forbids */
    GORBUZTE_OBSERVED, /* broken: the store that a load observes */
    GORBUZTE_KIND,     /* broken: one of gorbuzte_kind */
    GORBUZTE_PRIMARY,  /* flush: the thread of the missing store, plus 1 */
    GORBUZTE_WINDOWS,  /* flush: the windows of threads 0 to 7, two numbers each */
    GORBUZTE_ANSWER_SIZE = GORBUZTE_WINDOWS + 16
};

/*
 * A broken trace's kind is contradiction if the missing store is the observed one. Else the missing store happens
 * before the observed one: the kind is impossible if both are on one cache line (their locations divided by 8 are
 * equal), whose stores reach memory in commit order, so that no flush between the two is missing; and flush otherwise.
 *
 * A flush fault says where the line of the missing store may be flushed: thread t may do so in front of the events from
 * answer[GORBUZTE_WINDOWS + 2 * t] to answer[GORBUZTE_WINDOWS + 2 * t + 1]; both are 0 if it has no window. The thread
 * of the missing store, which is primary, may have none. The thread of the observed store has one, with one exception:
 * it is not the primary thread, and the record of the observed store is a locked operation (kind 12) whose load is the
 * first event, in the stretch of the two stores, that brings the missing store to the thread: a load of the missing
 * store, or of a store that happens after it, does so, and a wait (kind 14) whose signal passes the missing store on.
 * Some thread has one in any case.
 */

enum gorbuzte_verdict { GORBUZTE_REFUSED = 0, GORBUZTE_ROBUST = 1, GORBUZTE_BROKEN = 2 };

enum gorbuzte_kind { GORBUZTE_CONTRADICTION = 1, GORBUZTE_FLUSH = 2, GORBUZTE_IMPOSSIBLE = 3 };

/*
 * Judges a trace. Robust fills the cut buffer with the least choice: stretch j, thread t at 8 * (j - 1) + t, the rest 0;
 * any other answer leaves it as lent. Afterwards the first 32,768 numbers of the work area are 0 and the rest is
 * untouched, but refusals 14 (a smaller work area) and 15 (a cut buffer that is not 56 numbers) touch nothing.
 *
 * Empty bytes, as the file of a recorder that never started, are a trace with no events: robust, with events 0, share
 * 100 and a cut of zeros. The pointer must not be NULL then either. So refusal 1 is for bytes whose first record can be
 * read and is no begin.
 *
 * A begin of version 2 admits opens and closes (kinds 15 and 16); later in a trace of version 1 they are refused with
 * 3. The crossing loads of a thread that is open are held, but for those in a skip. A close with outcome 1 counts all
 * that its thread has held since its open, so it may be the event with which no choice explains the loads; outcome 0, a
 * crash and the trace's end drop them. Refusal 19 is for a close with another outcome.
 */
void gorbuzte_judge(const uint8_t *trace, size_t trace_len, uint16_t *work, size_t work_len, uint16_t *cut,
                    size_t cut_len, uint16_t answer[GORBUZTE_ANSWER_SIZE]);

/*
 * The numbers of an answer to gorbuzte_order: the refusal's number (1 to 14, 16, 18 or 19) or 0, its event number, and
 * this.
 */
enum gorbuzte_standing {
    GORBUZTE_BEFORE = 1,
    GORBUZTE_AFTER = 2,
    GORBUZTE_SAME = 3,
    GORBUZTE_NEITHER = 4
};

/*
 * How the store that event `first` issues (kind 2 or 12) stands to that of event `second`, by happens-before. Empty
 * bytes are refused with 1, at event 0, whatever the two numbers.
 */
void gorbuzte_order(const uint8_t *trace, size_t trace_len, uint16_t *work, size_t work_len, uint16_t first,
                    uint16_t second, uint16_t answer[3]);

/* The numbers of a record. What its kind does not have is 0. */
enum gorbuzte_record {
    GORBUZTE_RECORD_REFUSAL, /* the refusal's number or 0 */
    GORBUZTE_RECORD_KIND,    /* 1 to 16 */
    GORBUZTE_VERSION,        /* 1 or 2, if the trace is accepted */
    GORBUZTE_THREADS,
    GORBUZTE_LOCATIONS,
    GORBUZTE_THREAD,
    GORBUZTE_LOCATION,
    GORBUZTE_SOURCE,
    GORBUZTE_OUTCOME, /* of a close: 0 or 1, if the trace is accepted */
    GORBUZTE_RECORD_SIZE
};

/*
 * Reads the record at a position. Returns the position past it; 0 if it is refused, with 1 (no bytes there), 2, 3 or 4.
 * It is read alone, so that every kind is known, whatever the version of the trace.
 */
size_t gorbuzte_read(const uint8_t *trace, size_t trace_len, size_t at, uint16_t record[GORBUZTE_RECORD_SIZE]);

/*
 * Writes a record to the start of the output. Returns its size; 0 if it is refused, with 3 (no such kind) or 17 (the
 * output is shorter than the record), and then the output is untouched. Only the refusal of `record` changes.
 */
size_t gorbuzte_write(uint16_t record[GORBUZTE_RECORD_SIZE], uint8_t *output, size_t output_len);

/*
 * Where record number e stands in a trace: place[0] is the position of its length bytes, place[1] its size with them.
 * The size is 0 exactly if records 0 to e cannot all be framed.
 */
void gorbuzte_frame(const uint8_t *trace, size_t trace_len, size_t e, size_t place[2]);

#ifdef __cplusplus
}
#endif

#endif
