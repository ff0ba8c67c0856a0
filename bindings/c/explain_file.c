/* Tells what happened in the record of a file: prints for each broken predicate its number, its pair and, after 'by',
 * the events that gcr_explain writes, or 'met' where none is broken; exits with 0 met, 1 broken, 2 refused, 3 where the
 * file can't be read or the lines can't be written. */
#include "gcr.h"
#include "on_file.h"

static void tell_break(uint32_t predicate, uint64_t found, const uint8_t *record, size_t len) {
    uint16_t events[GCR_EXPLAIN_ENTRIES];
    size_t count = gcr_explained_count(gcr_explain(predicate, record, len, events, GCR_EXPLAIN_ENTRIES));
    printf("%u broken %u %u by", predicate, gcr_broken_a(found), gcr_broken_b(found));
    for (size_t i = 0; i < count; i++)
        printf(" %u", events[i]);
    putchar('\n');
}

static int tell(const uint8_t *record, size_t len) {
    uint64_t found[GCR_PREDICATES];
    uint64_t answer = gcr_judge_all(record, len, found, GCR_PREDICATES);
    if (!gcr_is_judged(answer))
        return tell_refusal(answer);
    int status = 0;
    for (uint32_t p = 1; p <= GCR_PREDICATES; p++)
        if (gcr_is_broken(found[p - 1])) {
            tell_break(p, found[p - 1], record, len);
            status = 1;
        }
    if (status == 0)
        puts("met");
    return status;
}

int main(int argc, char **argv) { return host(argc, argv, "explain_file", tell); }
