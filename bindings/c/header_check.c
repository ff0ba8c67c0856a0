/* Holds the headers' unpacking against a small rehearsal, what gcr_judge_all and gcr_explain write against
 * gcr_judge_predicate, and the words against the list of refusals and against what models are judged by.
 * Names each check that fails; exits with 0 where none does. */
#include "gcr.h"
#include <stdio.h>
#include <string.h>

#define CALLS 12    /* of the rehearsal's script */
#define LENGTH 1536 /* bytes of the rehearsal's record: seven events, six of them in block 1 */
#define ROOM 15     /* words lent to gcr_judge_all: two more than it writes */
#define ENTRIES 386 /* entries lent to gcr_explain: two more than it writes */
#define STAYS 7     /* what they hold before */

/* A row has a bit for each event, there is a row for each, and a ring through all of them can be told. */
_Static_assert(64 * GCR_ROW_WORDS == GCR_EVENTS_MOST, "a row");
_Static_assert(GCR_WORK_WORDS == GCR_ROW_WORDS * GCR_EVENTS_MOST, "the work slice");
_Static_assert(GCR_EXPLAIN_ENTRIES == GCR_EVENTS_MOST, "the entries");

static uint8_t record[GCR_RECORD_MOST];

/* At two sites, where object 5 opens with 80,000 and object 31 with 0. */
static const uint8_t script[CALLS * GCR_CALL_BYTES] = {
    GCR_PUT,     0, 5,  0, 0x70, 0x11, 1, 0, /* of 70,000 at site 0 */
    GCR_GET,     0, 5,  0, 0,    0,    0, 0, /* there */
    GCR_GET,     1, 5,  0, 0,    0,    0, 0, /* at site 1, which lacks the put: its object is untouched there */
    GCR_DELIVER, 0, 0,  0, 0,    0,    0, 0, /* of the put to its own site */
    GCR_CLOSE,   0, 0,  0, 0,    0,    0, 0, /* brings the put to site 1 */
    GCR_CLOSE,   0, 0,  0, 0,    0,    0, 0, /* where nothing is lacking any more */
    GCR_CLOSE,   1, 0,  0, 0,    0,    0, 0, /* of site 1 alone, which is no call */
    GCR_GET,     1, 5,  0, 0,    0,    0, 0, /* at site 1 again */
    GCR_PUT,     1, 5,  0, 1,    0,    0, 0, /* which site 0 lacks in the end */
    GCR_GET,     0, 31, 0, 0,    0,    0, 0, /* of the opening 0 */
    GCR_GET,     0, 6,  0, 0,    0,    0, 0, /* of an object without an opening */
    GCR_GET,     0, 32, 0, 0,    0,    0, 0, /* of an object that is none */
};

/* What the accessors give for a call's answer. */
struct parts {
    uint32_t number, event;
    int found;
    uint32_t value, copies;
};

static const struct parts parts[CALLS] = {
    {.event = 0},                             /* the put */
    {.event = 1, .found = 1, .value = 70000}, /* the get at site 0 */
    {.event = 2, .found = 1, .value = 80000}, /* the get that found the opening */
    {.number = 35},                           /* the refused delivery */
    {.copies = 1},                            /* the first close */
    {.copies = 0},                            /* the second close */
    {.number = 31},                           /* the refused close */
    {.event = 3, .found = 1, .value = 70000}, /* the get at site 1 */
    {.event = 4},                             /* the last put */
    {.event = 5, .found = 1, .value = 0},     /* the get that found the opening 0 */
    {.event = 6},                             /* the get that found nothing */
    {.number = 33},                           /* the refused get */
};

static int answer_is_right(const uint8_t *answers, size_t k) {
    const struct parts *due = parts + k;
    return gcr_answer_number(answers, k) == due->number && gcr_answer_event(answers, k) == due->event &&
           gcr_answer_found(script, answers, k) == due->found && gcr_answer_value(script, answers, k) == due->value &&
           gcr_answer_copies(script, answers, k) == due->copies;
}

static int answers_are_right(const uint8_t *answers) {
    int right = 1;
    for (size_t k = 0; k < CALLS; k++)
        right &= answer_is_right(answers, k);
    return right;
}

/* puts * (sites - 1) = done deliveries + copies delivered by closes + outstanding, with one other site. */
static int copies_add_up(const uint8_t *answers, uint64_t outstanding) {
    uint64_t puts = 0, came = 0;
    for (size_t k = 0; k < CALLS; k++) {
        int done = gcr_answer_number(answers, k) == 0;
        puts += done && script[GCR_CALL_BYTES * k] == GCR_PUT;
        came += done && script[GCR_CALL_BYTES * k] == GCR_DELIVER;
        came += gcr_answer_copies(script, answers, k);
    }
    return puts == came + outstanding;
}

/* The openings of the script. */
static int set_openings(uint8_t *openings) {
    return gcr_set_opening(openings, 5, 1) && gcr_set_opening(openings, 31, 0) && gcr_set_opening(openings, 5, 80000) &&
           !gcr_set_opening(openings, 32, 1);
}

static int openings_are_right(const uint8_t *openings) {
    int right = gcr_opening(openings, 5) == 80000;
    for (uint32_t object = 0; object < 300; object++) {
        int has = object == 5 || object == 31;
        right &= gcr_has_opening(openings, object) == has && (object == 5 || gcr_opening(openings, object) == 0);
    }
    return right;
}

/* The record is of the latest edition, and has the openings that were lent, and clocks that do not differ. */
static int rehearsal_is_right(void) {
    uint8_t openings[GCR_OPENINGS_BYTES] = {0}, answers[sizeof script];
    int set = set_openings(openings) && openings_are_right(openings);
    uint64_t done = gcr_rehearse(2, openings, sizeof openings, script, sizeof script, record, sizeof record, answers,
                                 sizeof answers);
    return set && gcr_rehearsed_number(done) == 0 && gcr_rehearsed_length(done) == LENGTH &&
           gcr_rehearsed_outstanding(done) == 1 && answers_are_right(answers) && copies_add_up(answers, 1) &&
           memcmp(record, "GCR3", 4) == 0 && openings_are_right(record + GCR_OPENINGS_AT) &&
           gcr_difference(record) == 0;
}

/* All four bytes, and no others. */
static int difference_is_right(void) {
    static const uint8_t head[] = {'G', 'C', 'R', '3', 5, 0, 2, 0, 0x28, 0x01, 0x02, 0xff, 0x20, 0};
    return gcr_difference(head) == 0xff020128;
}

/* 40, and both buffers as they were. */
static int is_refused_by_40(const uint8_t *openings, size_t len) {
    static uint8_t untouched[GCR_RECORD_MOST];
    uint8_t answers[sizeof script];
    memset(untouched, STAYS, sizeof untouched);
    memset(answers, STAYS, sizeof answers);
    uint64_t done = gcr_rehearse(2, openings, len, script, sizeof script, untouched, sizeof untouched, answers,
                                 sizeof answers);
    int kept = 1;
    for (size_t i = 0; i < sizeof untouched; i++)
        kept &= untouched[i] == STAYS && (i >= sizeof answers || answers[i] == STAYS);
    return gcr_rehearsed_number(done) == 40 && gcr_rehearsed_length(done) == 0 &&
           gcr_rehearsed_outstanding(done) == 0 && kept;
}

/* One byte too few or too many, and a value under a clear bit. */
static int openings_are_refused(void) {
    uint8_t openings[GCR_OPENINGS_BYTES + 1] = {0};
    int lengths = is_refused_by_40(openings, GCR_OPENINGS_BYTES - 1) && is_refused_by_40(openings, sizeof openings);
    openings[GCR_OPENINGS_BYTES - 1] = 1;
    return lengths && is_refused_by_40(openings, GCR_OPENINGS_BYTES);
}

static int reading_is_right(void) {
    static uint64_t work[GCR_WORK_WORDS];
    uint64_t passed = gcr_read(record, LENGTH, work, GCR_WORK_WORDS);
    uint64_t short_work = gcr_read(record, LENGTH, work, GCR_WORK_WORDS - 1);
    return gcr_is_passed(passed) && !gcr_is_refused(passed) && gcr_is_visible(work, 0, 1) &&
           !gcr_is_visible(work, 1, 0) && !gcr_is_passed(short_work) && gcr_refused_number(short_work) == 1;
}

/* Of as many gets at one site as there can be, and one more: each sees all before it, and the last is refused. */
static int rows_are_right(void) {
    static uint8_t gets[(GCR_EVENTS_MOST + 1) * GCR_CALL_BYTES], answers[sizeof gets], longest[GCR_RECORD_MOST];
    static const uint8_t openings[GCR_OPENINGS_BYTES];
    static uint64_t work[GCR_WORK_WORDS];
    for (size_t k = 0; k <= GCR_EVENTS_MOST; k++)
        gets[GCR_CALL_BYTES * k] = GCR_GET;
    uint64_t done = gcr_rehearse(1, openings, sizeof openings, gets, sizeof gets, longest, sizeof longest, answers,
                                 sizeof answers);
    int right = gcr_rehearsed_length(done) == GCR_RECORD_MOST && gcr_answer_number(answers, GCR_EVENTS_MOST) == 34 &&
                gcr_answer_event(answers, GCR_EVENTS_MOST - 1) == GCR_EVENTS_MOST - 1 &&
                gcr_is_passed(gcr_read(longest, GCR_RECORD_MOST, work, GCR_WORK_WORDS));
    for (size_t a = 0; a < GCR_EVENTS_MOST; a++)
        for (size_t b = 0; b < GCR_EVENTS_MOST; b++)
            right &= gcr_is_visible(work, a, b) == (a < b);
    return right;
}

/* What a rehearsal leaves is causal; there is no model 14. */
static int judging_is_right(void) {
    uint64_t met = gcr_judge_model(4, record, LENGTH);
    uint64_t no_model = gcr_judge_model(14, record, LENGTH);
    return gcr_is_met(met) && !gcr_is_broken(met) && !gcr_is_refused(met) && gcr_refused_number(no_model) == 2;
}

/* The first 1,000 bytes are no record. */
static int refusal_is_right(void) {
    uint64_t cut = gcr_judge_predicate(1, record, 1000);
    return gcr_is_refused(cut) && !gcr_is_met(cut) && !gcr_is_broken(cut) && gcr_refused_number(cut) == 3 &&
           gcr_refused_place(cut) == 0;
}

/* Word p - 1 is what gcr_judge_predicate answers for p, of a refused record too; words that are not lent, and those
 * after the thirteenth, stay. */
static int words_are_right(const uint64_t *out, size_t len, size_t words) {
    for (uint32_t p = 1; p <= ROOM; p++) {
        int written = p <= words && p <= GCR_PREDICATES;
        if (out[p - 1] != (written ? gcr_judge_predicate(p, record, len) : STAYS))
            return 0;
    }
    return 1;
}

static int all_is_right(size_t len, size_t words) {
    uint64_t out[ROOM];
    for (size_t i = 0; i < ROOM; i++)
        out[i] = STAYS;
    uint64_t answer = gcr_judge_all(record, len, out, words);
    int refused = gcr_is_refused(gcr_judge_predicate(1, record, len));
    return gcr_is_refused(answer) == refused && gcr_is_judged(answer) == !refused && words_are_right(out, len, words);
}

static int every_length_is_right(size_t len) {
    return all_is_right(len, 0) && all_is_right(len, 5) && all_is_right(len, GCR_PREDICATES) && all_is_right(len, ROOM);
}

/* The answer of gcr_explain, where it wrote just the entries that it counts: no event of the record is STAYS. Else 0,
 * which it never answers. */
static uint64_t explained(uint32_t predicate, size_t len, uint16_t *events, size_t entries) {
    for (size_t i = 0; i < ENTRIES; i++)
        events[i] = STAYS;
    uint64_t answer = gcr_explain(predicate, record, len, events, entries);
    for (size_t i = 0; i < ENTRIES; i++)
        if ((events[i] != STAYS) != (i < gcr_explained_count(answer)))
            return 0;
    return answer;
}

/* A met predicate is refused by 42. This record's broken ones are told by b alone. */
static int explanation_is_right(uint32_t predicate, size_t entries) {
    uint16_t events[ENTRIES];
    uint64_t found = gcr_judge_predicate(predicate, record, LENGTH);
    uint64_t answer = explained(predicate, LENGTH, events, entries);
    if (gcr_is_met(found))
        return gcr_is_refused(answer) && gcr_refused_number(answer) == 42 && gcr_refused_place(answer) == 0;
    return gcr_is_broken(found) && !gcr_is_refused(answer) && gcr_explained_count(answer) == 1 &&
           events[0] == gcr_broken_b(found);
}

/* Of all predicates, over slices that are long enough. At least one is broken. */
static int explanations_are_right(void) {
    int right = gcr_is_broken(gcr_judge_predicate(2, record, LENGTH));
    for (uint32_t p = 1; p <= GCR_PREDICATES; p++)
        right &= explanation_is_right(p, GCR_EXPLAIN_ENTRIES) && explanation_is_right(p, ENTRIES);
    return right;
}

static int is_not_explained(uint32_t predicate, size_t len, size_t entries, uint32_t number) {
    uint16_t events[ENTRIES];
    uint64_t answer = explained(predicate, len, events, entries);
    return gcr_is_refused(answer) && gcr_refused_number(answer) == number && gcr_refused_place(answer) == 0 &&
           gcr_explained_count(answer) == 0;
}

/* At the ends of its range, and of the two refusals that nothing else has. */
static int count_is_right(void) {
    uint64_t refused = UINT64_C(2097152);
    return gcr_explained_count(1) == 1 && gcr_explained_count(384) == GCR_EXPLAIN_ENTRIES &&
           gcr_explained_count(refused + 41 * 1024) == 0 && gcr_explained_count(refused + 42 * 1024) == 0;
}

/* 2 before 41, 41 before what refuses the record, and that before 42: predicate 10 is met where it is judged. */
static int explanations_are_refused(void) {
    return is_not_explained(0, 1000, 0, 2) && is_not_explained(14, LENGTH, ENTRIES, 2) &&
           is_not_explained(10, 1000, 0, 41) && is_not_explained(10, LENGTH, GCR_EXPLAIN_ENTRIES - 1, 41) &&
           is_not_explained(10, 1000, GCR_EXPLAIN_ENTRIES, 3) && is_not_explained(10, LENGTH, GCR_EXPLAIN_ENTRIES, 42);
}

/* The list of refusals, as a host may take it. */
static const struct refusal {
    uint32_t number;
    const char *sentence;
} refusals[] = {
#define GCR_REFUSAL(number, question, place, sentence) {number, sentence},
#include "gcr_refusals.h"
};

/* Each of the list has its sentence, and no other number that an answer has room for has one. */
static int sentences_are_right(void) {
    size_t listed = sizeof refusals / sizeof *refusals, found = 0;
    int right = gcr_refusal_sentence(UINT32_MAX) == NULL;
    for (size_t i = 0; i < listed; i++) {
        const char *sentence = gcr_refusal_sentence(refusals[i].number);
        right &= sentence && strcmp(sentence, refusals[i].sentence) == 0;
    }
    for (uint32_t number = 0; number < 1024; number++)
        found += gcr_refusal_sentence(number) != NULL;
    return right && found == listed;
}

static int is_no_number(uint32_t number) {
    return !gcr_predicate_name(number) && !gcr_model_name(number) && *gcr_model_predicates(number) == 0;
}

/* The model breaks as the first of these predicates that breaks, or is met where none does. */
static int list_is_right(uint32_t model) {
    uint64_t found = 0;
    const uint32_t *predicate = gcr_model_predicates(model);
    int listed = *predicate != 0;
    for (; *predicate && gcr_is_met(found); predicate++)
        found = gcr_judge_predicate(*predicate, record, LENGTH);
    return listed && found == gcr_judge_model(model, record, LENGTH);
}

static int words_of_numbers_are_right(void) {
    int right = is_no_number(0) && is_no_number(GCR_PREDICATES + 1) && is_no_number(UINT32_MAX);
    for (uint32_t number = 1; number <= GCR_PREDICATES; number++)
        right &= gcr_predicate_name(number) && gcr_model_name(number) && list_is_right(number);
    return right && strcmp(gcr_version(), GCR_VERSION) == 0;
}

/* 1 where the check failed, with its name written. */
static int wrong(const char *name, int right) {
    if (!right)
        printf("header_check: %s is not as the header says\n", name);
    return !right;
}

int main(void) {
    int failed = wrong("a rehearsal", rehearsal_is_right());
    failed += wrong("a refusal of openings", openings_are_refused());
    failed += wrong("a difference of clocks", difference_is_right());
    failed += wrong("a read", reading_is_right());
    failed += wrong("a read of the longest record", rows_are_right());
    failed += wrong("a judgment", judging_is_right());
    failed += wrong("a refusal", refusal_is_right());
    failed += wrong("gcr_judge_all of a record that passes", every_length_is_right(LENGTH));
    failed += wrong("gcr_judge_all of a refused record", every_length_is_right(1000));
    failed += wrong("an explanation", explanations_are_right());
    failed += wrong("a count of entries", count_is_right());
    failed += wrong("a refusal to explain", explanations_are_refused());
    failed += wrong("a sentence", sentences_are_right());
    failed += wrong("a name, a model's list or the version", words_of_numbers_are_right());
    return failed != 0;
}
