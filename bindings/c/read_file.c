/* Asks the questions of the record in a file, with the reader's header and archive alone: prints whether it passed;
 * exits with 0 passed, 2 refused, 3 where the file can't be read or the line can't be written. */
#include "gcr_reader.h"
#include "on_file.h"

static int tell(const uint8_t *record, size_t len) {
    static uint64_t work[GCR_WORK_WORDS];
    uint64_t answer = gcr_read(record, len, work, GCR_WORK_WORDS);
    if (!gcr_is_passed(answer))
        return tell_refusal(answer);
    puts("passed");
    return 0;
}

int main(int argc, char **argv) { return host(argc, argv, "read_file", tell); }
