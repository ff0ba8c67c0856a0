/* Grain position records: the call of the proved reader, for C and C++ hosts. The archive libgcr_reader.a has this call
 * and no other: a members' site needs it and this header alone, and libgcr_words.a where it wants the words. The
 * shared object libgcr_reader.so has both. The calls of the judge and of the rehearsal are in gcr.h and in the archive
 * libgcr.a.
 *
 * Memory, stack, threads and answers are the same for the calls of both headers.
 *
 * MEMORY. The caller owns every buffer. A call looks at them only while it runs, keeps no pointer and allocates
 * nothing. No pointer may be NULL, also where its length is 0, and a buffer that a call writes may not overlap another
 * buffer of that call. A length counts elements: bytes, or the 64-bit words or 16-bit entries that the pointer is to.
 *
 * STACK. A call's work memory is on the calling thread's stack. A constant beside the call says how many bytes of it
 * are enough, which is more than was measured (bindings/README.md); what a signal handler takes comes on top. That of
 * judging has risen with version 0.8.0, and no call can tell how much stack it was given: a host that starts threads by
 * these constants has to be compiled anew (docs/HOST.md).
 *
 * THREADS. The library has no static state. Calls may run at the same time where none writes a buffer that another
 * one uses.
 *
 * ANSWERS. Any input is answered: nothing aborts, and a refusal has the number of the first question that got a no, and
 * a place, which is 0 where the question has none. The questions, their places and their sentences are the table of
 * docs/FORMAT.md, 'Refusals'; for programs it is the list of gcr_refusals.h. A record is asked 1 and 3 to 10 here.
 */
#ifndef GCR_READER_H
#define GCR_READER_H

#include <stddef.h>
#include <stdint.h>

#ifdef __cplusplus
extern "C" {
#endif

#define GCR_VERSION "0.8.0" /* of the headers, archives, shared objects and the command gcr, which come together */

#define GCR_EVENTS_MOST 384    /* events of the longest record, of edition GCR3; GCR1 and GCR2 have at most 256 */
#define GCR_RECORD_MOST 33280  /* bytes of the longest record */
#define GCR_ROW_WORDS 6        /* words of an event's visible set in the work slice, whatever the edition */
#define GCR_WORK_WORDS 2304    /* the words that gcr_read asks for: a row for each of GCR_EVENTS_MOST events */
#define GCR_DIFFERENCE_AT 8    /* where a record has the difference of its sites' clocks */
#define GCR_OPENING_OBJECTS 32 /* the objects that may have an opening: 0 to 31 */
#define GCR_OPENINGS_BYTES 132 /* bytes of openings */
#define GCR_OPENINGS_AT 12     /* where they stand in a record */

#define GCR_READ_STACK_BYTES 16384 /* stack for gcr_read */

/* Reads a record, of edition GCR1, GCR2 or GCR3, and lays its visible sets into `work`.
 * Answer: 0 passed; 2,097,152 + 1,024 * number + place refused. A record that passed has not been judged.
 * `work` afterwards: unchanged where 1 refused; its first 2,304 words zero where 3 to 10 refused; else words 6e to
 * 6e + 5 hold event e's visible set (see gcr_is_visible), the rest of the 2,304 zero. Later words never change. */
uint64_t gcr_read(const uint8_t *record, size_t len, uint64_t *work, size_t words);

/* Of what gcr_read answers: whether the record passed every question. */
static inline int gcr_is_passed(uint64_t answer) { return answer == 0; }

/* Of what gcr_read, a judging call or gcr_explain answers: whether it is a refusal, and of a refusal its number and
 * place. */
static inline int gcr_is_refused(uint64_t answer) { return answer >> 20 > 1; }
static inline uint32_t gcr_refused_number(uint64_t answer) { return (uint32_t)(answer >> 10 & 1023); }
static inline uint32_t gcr_refused_place(uint64_t answer) { return (uint32_t)(answer & 1023); }

/* Whether event a is visible to event b, both below GCR_EVENTS_MOST, in the words of a read that passed. */
static inline int gcr_is_visible(const uint64_t *work, size_t a, size_t b) {
    return (int)(work[GCR_ROW_WORDS * b + a / 64] >> a % 64 & 1);
}

/* WORDS, from libgcr_words.a or a shared object. They are text of the library's own, which stays as it is and is never
 * freed. */

/* The version of the library that the host runs with; GCR_VERSION is that of the header it was compiled with. */
const char *gcr_version(void);

/* The sentence of a refusal, by its number; NULL where none has this number. It says 'at this place' of the place. */
const char *gcr_refusal_sentence(uint32_t number);

/* An opening is the figure that an object starts the day with: what a read of the object should hold that sees no
 * write on it. Openings are GCR_OPENINGS_BYTES bytes. The first four have a bit for each of objects 0 to 31, object k's
 * at bit k mod 8 of byte k div 8, set where it has an opening. Then come their 32 values, 4 bytes each with the lowest
 * first, and 0 where the bit is clear. An opening of 0 is one too; objects from 32 on have none.
 * A record that passed has its openings at record + GCR_OPENINGS_AT, in every edition: GCR1, which has none, has zeros
 * there. */

/* Whether an object has an opening, and which: 0 where it has none. */
static inline int gcr_has_opening(const uint8_t *openings, uint32_t object) {
    return object < GCR_OPENING_OBJECTS && (openings[object / 8] >> object % 8 & 1);
}
static inline uint32_t gcr_opening(const uint8_t *openings, uint32_t object) {
    if (!gcr_has_opening(openings, object))
        return 0;
    const uint8_t *at = openings + 4 + 4 * object;
    return at[0] | (uint32_t)at[1] << 8 | (uint32_t)at[2] << 16 | (uint32_t)at[3] << 24;
}

/* The milliseconds by which the clocks of two sites may differ, of a record that passed: any number of 32 bits in
 * editions GCR2 and GCR3, and 0 in GCR1, which has zeros there. Predicates 3 and 4 are judged by it (gcr.h). */
static inline uint32_t gcr_difference(const uint8_t *record) {
    const uint8_t *at = record + GCR_DIFFERENCE_AT;
    return at[0] | (uint32_t)at[1] << 8 | (uint32_t)at[2] << 16 | (uint32_t)at[3] << 24;
}

#ifdef __cplusplus
}
#endif

#endif
