/* Measures the stack that each call takes over the largest inputs; or, by its name, of one call that judges or explains,
 * which is then the first such of the process. Exits with 1 where one takes more than its header says, or where an input
 * is not what it should be. */
#include "largest.h"
#include "painted.h"
#include <stdio.h>
#include <string.h>

/* What a call is asked: a predicate's or a model's number, and a record. */
struct asked {
    uint32_t number;
    const uint8_t *record;
    size_t length;
};

/* A call, the largest number that it is asked with, and the stack that its header names. */
struct call {
    const char *name;
    void (*run)(const void *);
    uint32_t numbers;
    size_t most;
};

static void read_record(const void *input) {
    static uint64_t work[GCR_WORK_WORDS];
    const struct asked *asked = input;
    gcr_read(asked->record, asked->length, work, GCR_WORK_WORDS);
}

static void judge_model(const void *input) {
    const struct asked *asked = input;
    gcr_judge_model(asked->number, asked->record, asked->length);
}

static void judge_predicate(const void *input) {
    const struct asked *asked = input;
    gcr_judge_predicate(asked->number, asked->record, asked->length);
}

static void judge_all(const void *input) {
    static uint64_t out[GCR_PREDICATES];
    const struct asked *asked = input;
    gcr_judge_all(asked->record, asked->length, out, GCR_PREDICATES);
}

static void explain(const void *input) {
    static uint16_t events[GCR_EXPLAIN_ENTRIES];
    const struct asked *asked = input;
    gcr_explain(asked->number, asked->record, asked->length, events, GCR_EXPLAIN_ENTRIES);
}

static void rehearse(const void *script) {
    static uint8_t record[GCR_RECORD_MOST], answers[GCR_SCRIPT_MOST];
    gcr_rehearse(LARGEST_SITES, largest_openings(), GCR_OPENINGS_BYTES, script, GCR_SCRIPT_MOST, record, sizeof record,
                 answers, sizeof answers);
}

static const struct call calls[] = {
    {"gcr_read", read_record, 1, GCR_READ_STACK_BYTES},
    {"gcr_judge_model", judge_model, 13, GCR_JUDGE_STACK_BYTES},
    {"gcr_judge_predicate", judge_predicate, 13, GCR_JUDGE_STACK_BYTES},
    {"gcr_judge_all", judge_all, 1, GCR_JUDGE_STACK_BYTES},
    {"gcr_explain", explain, 13, GCR_JUDGE_STACK_BYTES},
};

/* The most that a call takes over all records and numbers. */
static size_t largest_use(const struct call *call) {
    size_t largest = 0;
    for (size_t k = 0; k < LARGEST_RECORDS; k++)
        for (uint32_t number = 1; number <= call->numbers; number++) {
            struct asked asked = {number, largest_record(k), largest_length(k)};
            size_t used = stack_used(call->run, &asked);
            largest = used > largest ? used : largest;
        }
    return largest;
}

/* Writes the line of a call; whether it kept to what its header says. */
static int kept(const char *name, size_t used, size_t most) {
    printf("%-20s %6zu bytes of stack; the header says %zu\n", name, used, most);
    return 0 < used && used <= most;
}

/* The first call of a process may also have libc's functions looked up, which takes stack. */
static int first_call_kept(void) {
    static const uint8_t zeros[GCR_RECORD_MOST];
    struct asked asked = {0, zeros, sizeof zeros};
    return kept("gcr_read, at first", stack_used(read_record, &asked), GCR_READ_STACK_BYTES);
}

/* Whether so many entries are written of a predicate of record 5. */
static int is_explained_by(uint32_t predicate, size_t count) {
    uint16_t events[GCR_EXPLAIN_ENTRIES];
    uint64_t answer = gcr_explain(predicate, largest_record(5), largest_length(5), events, GCR_EXPLAIN_ENTRIES);
    return gcr_explained_count(answer) == count;
}

static int is_met(uint32_t model, size_t k) {
    return gcr_is_met(gcr_judge_model(model, largest_record(k), largest_length(k)));
}

/* All but the last, which is of an older edition, are as long as a record can be. */
static int lengths_are_right(void) {
    int right = largest_length(LARGEST_RECORDS - 1) == 19456;
    for (size_t k = 0; k + 1 < LARGEST_RECORDS; k++)
        right &= largest_length(k) == GCR_RECORD_MOST;
    return right;
}

/* The records take the long ways: four that are met, of which one has clocks that differ and one is of an older
 * edition, a break of predicate 10 at (0, 0), and a ring. Record 5 is explained in each of the three ways, two of them
 * by all events. */
static int inputs_are_right(void) {
    uint64_t turned = gcr_judge_predicate(10, largest_record(2), largest_length(2));
    uint64_t ring = gcr_judge_predicate(10, largest_record(3), largest_length(3));
    return lengths_are_right() && is_met(4, 0) && is_met(4, 4) && gcr_difference(largest_record(4)) && is_met(1, 1) &&
           is_met(1, 6) && gcr_is_broken(turned) && gcr_broken_a(turned) == 0 && gcr_broken_b(turned) == 0 &&
           gcr_is_refused(ring) && gcr_refused_number(ring) == 10 && is_explained_by(10, GCR_EXPLAIN_ENTRIES) &&
           is_explained_by(11, GCR_EXPLAIN_ENTRIES) && is_explained_by(8, 2) && is_explained_by(9, 1);
}

/* A null name stands for all. */
static int all_kept(const char *name) {
    int right = name || first_call_kept();
    for (size_t i = 0; i < sizeof calls / sizeof *calls; i++)
        if (!name || strcmp(name, calls[i].name) == 0)
            right &= kept(calls[i].name, largest_use(calls + i), calls[i].most);
    return right & (name || kept("gcr_rehearse", stack_used(rehearse, largest_script()), GCR_REHEARSE_STACK_BYTES));
}

int main(int argc, char **argv) {
    int right = all_kept(argc > 1 ? argv[1] : NULL);
    if (!inputs_are_right()) {
        puts("stack_use: an input is not what it should be");
        right = 0;
    }
    return !right;
}
