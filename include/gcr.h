/* Grain position records: the calls of the proved judge and rehearsal, for C and C++ hosts. The archive libgcr.a has
 * these calls. The reader's call, gcr_read, is in gcr_reader.h, which this header includes, and in the archive
 * libgcr_reader.a; words are in libgcr_words.a. The shared object libgcr.so has all that both headers have.
 *
 * What gcr_reader.h says of memory, stack, threads and answers holds here, and so do its refusals 3 to 10; a judging
 * call and gcr_explain bring their own work slice, so 1 never refuses them. Before 3 they ask 2. An explanation is
 * asked 41 after 2, and 42 after 10; a rehearsal 20 to 23 and then 40; and each call of a script 31 to 36, which are
 * found in its answer. The questions and sentences are the table of docs/FORMAT.md, 'Refusals', and the list of
 * gcr_refusals.h. */
#ifndef GCR_H
#define GCR_H

#include "gcr_reader.h"

#ifdef __cplusplus
extern "C" {
#endif

#define GCR_PREDICATES 13       /* the words that gcr_judge_all writes at most */
#define GCR_EXPLAIN_ENTRIES 384 /* the entries that gcr_explain asks for, and writes at most */
#define GCR_SCRIPT_MOST 32768   /* bytes of the longest script */
#define GCR_CALL_BYTES 8        /* bytes of a script's call, and of its answer */

/* The kinds of call, in byte 0. Bytes that a line does not name are 0; numbers have their lowest byte first. */
#define GCR_PUT 1     /* byte 1 the site, byte 2 the object, bytes 4-7 the value */
#define GCR_GET 2     /* byte 1 the site, byte 2 the object */
#define GCR_DELIVER 3 /* byte 1 the site that the put is delivered to, bytes 4-5 the event that the put became */
#define GCR_CLOSE 4   /* bytes 1-7 are 0; delivers to each site every put that it lacks, and only 31 refuses it */

#define GCR_JUDGE_STACK_BYTES 262144    /* stack for any of the three judging calls and gcr_explain */
#define GCR_REHEARSE_STACK_BYTES 131072 /* stack for gcr_rehearse */

/* Judges a model, 1 to 13, of a record.
 * Answer: 0 met; 1,048,576 + 1,024 * a + b broken, (a, b) being the pair of the first broken predicate in the model's
 * list: of the pairs of events that break it the one with the lowest a, and for that the lowest b (docs/JUDGED.md,
 * 'The pair of a break', says which event is which); 2,097,152 + 1,024 * number + place refused.
 * Predicates 3 and 4, and so models 1, 2 and 5, go by the record's gcr_difference. A pending event returned before
 * nothing. One that returned did so before an event of its own site started where return < start, and before one of
 * another site where return + difference < start; the sum does not wrap. No other predicate goes by the difference.
 * Where a model is met, so is every model that it covers, and where it is broken, so is every model that covers it:
 * docs/JUDGED.md, 'Which model covers which', has the 43 pairs. */
uint64_t gcr_judge_model(uint32_t model, const uint8_t *record, size_t len);

/* The same of one predicate, 1 to 13. */
uint64_t gcr_judge_predicate(uint32_t predicate, const uint8_t *record, size_t len);

/* Judges all thirteen predicates, reading the record once. Question 2 is not asked.
 * Answer: 0 judged; 2,097,152 + 1,024 * number + place refused. It says nothing of what was found: a record that was
 * judged may break any of them. Take it apart with gcr_is_judged, and never with gcr_is_met.
 * `out` afterwards: word p - 1 holds what gcr_judge_predicate answers for predicate p, for as many as fit, 13 at most.
 * This holds where the record is refused too: then each of these words is the refusal, and none is met. Later words
 * never change. */
uint64_t gcr_judge_all(const uint8_t *record, size_t len, uint64_t *out, size_t words);

/* Tells what happened where a predicate, 1 to 13, is broken. With (a, b) the pair that gcr_judge_predicate answers for
 * it, the events after a are written to the front of `events`, b last:
 *   10, 11  a chain of steps from a to b. A step leads from an event to one of its site that started after its return
 *           (site order), or to one that sees it. No chain from a to b has fewer steps; of those with as many, the
 *           event after a is the lowest possible, then the one after that, and so on. Where a is b, the chain is a
 *           ring: two steps or more, the last to a itself
 *   5, 8    the lowest middle event, then b. It is a read of b's site that sees a and returned before b started
 *   others  b alone
 * Answer: how many entries were written, 1 to 384; 2,097,152 + 1,024 * number + place refused. The questions are 2,
 * then 41, then 3 to 10, then 42, and the place is 0 but for 4 and 7 to 10. 41 asks for 384 entries however few there
 * are to write; 42 refuses exactly where gcr_judge_predicate answers met.
 * `events` afterwards: the entries beyond those written stay, and where it was refused all of them do. */
uint64_t gcr_explain(uint32_t predicate, const uint8_t *record, size_t len, uint16_t *events, size_t entries);

/* Runs a script over a store of `sites` sites and writes the record of what happened, in edition GCR3.
 * `openings` are the figures that the objects start with at every site: GCR_OPENINGS_BYTES bytes as gcr_reader.h says,
 * all zero where no object has one (see gcr_set_opening). A get of an object of which its site knows no put finds the
 * object's opening, or none where it has none; the first put of the object that is done or delivered at a site replaces it
 * there. The record has the openings as they were lent, and its gcr_difference is 0.
 * Answer: number + 256 * length + 16,777,216 * outstanding, where number is 0 or what refused the rehearsal, length
 * the record's bytes and outstanding the copies still on the lines when the script has ended: exactly the pairs of a
 * put and a site that lacks it. Both are 0 where it was refused; with one site outstanding is 0.
 * Where it was not refused, done puts * (sites - 1) = done deliveries + copies delivered by closes + outstanding: the
 * calls of GCR_PUT and of GCR_DELIVER whose gcr_answer_number is 0, and gcr_answer_copies of all calls added up.
 * Buffers afterwards: unchanged where 20 to 23 or 40 refused; else `record` holds the record in its first length bytes
 * and `answers` an answer for each call in its first script_len bytes, and the bytes beyond stay. A call that is
 * refused changes only its own answer, and the script goes on. */
uint64_t gcr_rehearse(uint32_t sites, const uint8_t *openings, size_t openings_len, const uint8_t *script,
                      size_t script_len, uint8_t *record, size_t record_len, uint8_t *answers, size_t answers_len);

/* WORDS, from libgcr_words.a or libgcr.so, as gcr_reader.h has them. */

/* The name of a predicate and of a model, 1 to 13; NULL of any other number. */
const char *gcr_predicate_name(uint32_t predicate);
const char *gcr_model_name(uint32_t model);

/* The numbers of the predicates that a model asks, in its order, and 0 after the last; of a number that is no model 0
 * alone. So it is never NULL, and this goes through all of them:
 *   for (const uint32_t *p = gcr_model_predicates(model); *p; p++) */
const uint32_t *gcr_model_predicates(uint32_t model);

/* Gives an object an opening, in place of one that it has, and answers 1. Of an object from 32 on it answers 0 and
 * changes nothing. Begin with zeros, `uint8_t openings[GCR_OPENINGS_BYTES] = {0};`: what is made so is never refused
 * by 40. */
static inline int gcr_set_opening(uint8_t *openings, uint32_t object, uint32_t value) {
    if (object >= GCR_OPENING_OBJECTS)
        return 0;
    openings[object / 8] |= (uint8_t)(1 << object % 8);
    for (uint32_t k = 0; k < 4; k++)
        openings[4 + 4 * object + k] = (uint8_t)(value >> 8 * k);
    return 1;
}

/* Of what gcr_judge_model and gcr_judge_predicate answer, and of the words that gcr_judge_all writes: whether it is met
 * or broken (or refused: gcr_is_refused), and of a break the pair's events. Not for the answers of gcr_judge_all and
 * gcr_read, which have found nothing, nor for that of gcr_explain. */
static inline int gcr_is_met(uint64_t answer) { return answer == 0; }
static inline int gcr_is_broken(uint64_t answer) { return answer >> 20 == 1; }
static inline uint32_t gcr_broken_a(uint64_t answer) { return (uint32_t)(answer >> 10 & 1023); }
static inline uint32_t gcr_broken_b(uint64_t answer) { return (uint32_t)(answer & 1023); }

/* Of what gcr_judge_all answers: whether the record was judged; else it was refused. */
static inline int gcr_is_judged(uint64_t answer) { return answer == 0; }

/* Of what gcr_explain answers: the entries written, 0 where it was refused (see gcr_is_refused). */
static inline size_t gcr_explained_count(uint64_t answer) { return gcr_is_refused(answer) ? 0 : (size_t)answer; }

/* Of what gcr_rehearse answers: what refused it, or 0; the record's bytes; the copies outstanding, at most 2,688. */
static inline uint32_t gcr_rehearsed_number(uint64_t answer) { return (uint32_t)(answer & 255); }
static inline size_t gcr_rehearsed_length(uint64_t answer) { return (size_t)(answer >> 8 & 65535); }
static inline uint64_t gcr_rehearsed_outstanding(uint64_t answer) { return answer >> 24; }

/* Of the answer of call k: 0 or what refused it; the event that a put or get became, 0 also where it became none. */
static inline uint32_t gcr_answer_number(const uint8_t *answers, size_t k) { return answers[8 * k]; }
static inline uint32_t gcr_answer_event(const uint8_t *answers, size_t k) {
    return answers[8 * k + 2] | (uint32_t)answers[8 * k + 3] << 8;
}

/* Bytes 4-7 of the answer of call k where the call is of that kind, else 0. For the accessors below. */
static inline uint32_t gcr_answer_of_kind(uint8_t kind, const uint8_t *script, const uint8_t *answers, size_t k) {
    const uint8_t *at = answers + 8 * k + 4;
    if (script[8 * k] != kind)
        return 0;
    return at[0] | (uint32_t)at[1] << 8 | (uint32_t)at[2] << 16 | (uint32_t)at[3] << 24;
}

/* Of call k and its answer: whether the call is a get that found a value; the value that it found, else 0; the copies
 * that it delivered as a close, else 0. Of a refused call all three are 0.
 * They take the script, since a close sets the byte that told of a found value, and has its copies where a get has the
 * value. A host from before there were closes gives the answers alone, does not compile, and has to look. */
static inline int gcr_answer_found(const uint8_t *script, const uint8_t *answers, size_t k) {
    return script[8 * k] == GCR_GET && answers[8 * k + 1] == 1;
}
static inline uint32_t gcr_answer_value(const uint8_t *script, const uint8_t *answers, size_t k) {
    return gcr_answer_of_kind(GCR_GET, script, answers, k);
}
static inline uint32_t gcr_answer_copies(const uint8_t *script, const uint8_t *answers, size_t k) {
    return gcr_answer_of_kind(GCR_CLOSE, script, answers, k);
}

#ifdef __cplusplus
}
#endif

#endif
