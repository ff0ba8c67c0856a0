/* Judges the record in a file against model 4, causal: prints the verdict; exits with 0 met, 1 broken,
 * 2 refused, 3 where the file can't be read or the line can't be written. */
#include "gcr.h"
#include "on_file.h"

static int tell(const uint8_t *record, size_t len) {
    uint64_t answer = gcr_judge_model(4, record, len);
    if (gcr_is_refused(answer))
        return tell_refusal(answer);
    if (gcr_is_broken(answer)) {
        printf("broken %u %u\n", gcr_broken_a(answer), gcr_broken_b(answer));
        return 1;
    }
    puts("met");
    return 0;
}

int main(int argc, char **argv) { return host(argc, argv, "judge_file", tell); }
